//! Comparisons at the ceilings: grids of 65,536 by 65,536 with few tile records, or with none and other
//! fills; 65,536 tile records; many packed tiles, and the largest: each within a second, packed ones
//! within four. What comes out of so many cells is known from the description.

use std::time::{Duration, Instant};

use gvrs_tests::build::bytes_of;
use gvrs_tests::library::compare_into;
use gvrs_tests::page::{Body, Element, Page, Tile, SHORT};
use gvrs_tests::prng::Prng;
use gvrs_tests::second::compare::ENTRY;

use crate::deeds::scored::packed;
use crate::reads::long_files::page_of_many_tiles;
use crate::run::Run;

const FEW_TILES: &str = "65,536 by 65,536 cells, two tiles each, all listed, within a second";
const NO_MEMORY: &str = "the same without memory, no tile packed";
const OTHER_FILLS: &str = "2^32 cells, other fills, a list of a million entries, within a second";
const EIGHT: &str = "2^35 cells of eight elements, other fills, a list of a million entries";
const NONE: &str = "2^32 cells of which none differs, within a second";
const MANY_TILES: &str = "every cell of 65,536 tiles, within a second";
const MANY_CELLS: &str = "4,194,304 packed cells, few differing, within four seconds";
const LARGEST: &str =
    "packed tiles of 524,288 Shorts, all differing and listed, within four seconds";

const SIDE: u64 = 65_536;
/// Numbers of memory that let every tile be unpacked as seldom as can be.
const ALWAYS_ENOUGH: usize = 1_048_576;
const MILLION: usize = 1_000_000;
const INDEX: u8 = 5;

pub fn section(run: &mut Run, random: &mut Prng) {
    let things = [FEW_TILES, NO_MEMORY, OTHER_FILLS, EIGHT, NONE, MANY_TILES, MANY_CELLS, LARGEST];
    for thing in things {
        run.comparisons.want(thing);
    }
    for tile in [[256, 256], [4096, 16], [16, 4096]] {
        few_tiles(run, tile, true, random);
        few_tiles(run, tile, false, random);
    }
    other_fills(run, 1, OTHER_FILLS);
    other_fills(run, 8, EIGHT);
    many_tiles(run, random);
    many_cells(run, random);
    largest(run, random);
}

/// Asks the library until it has answered within a second, or four where tiles are unpacked, three times
/// at most, as other work may come between, but not again where it has taken very long. The list has room
/// for the entries given and two numbers more.
fn in_time(
    run: &mut Run,
    files: [&[u8]; 2],
    memory: usize,
    number: u64,
    entries: &[[u32; ENTRY]],
    thing: &str,
) {
    let [first, second] = files.map(|file| (file, u32::from(INDEX)));
    let within = Duration::from_secs(if [MANY_CELLS, LARGEST].contains(&thing) { 4 } else { 1 });
    let mut memory = vec![3; memory];
    let wanted = [entries.concat(), vec![u32::MAX; 2]].concat();
    let mut shortest = Duration::MAX;
    for _ in 0..3 {
        let (mut list, mut out) = (vec![u32::MAX; wanted.len()], [u64::MAX; 2]);
        let begin = Instant::now();
        let answer = compare_into(first, second, &mut memory, &mut list, &mut out);
        shortest = shortest.min(begin.elapsed());
        if (answer, out) != (0, [number, 0]) || list != wanted {
            let at = (0..list.len()).find(|at| list[*at] != wanted[*at]);
            let text = format!("{thing}: {answer}, {out:?}, expected {number}; list {at:?}");
            run.fault(&text, first.0);
            return;
        }
        if shortest < within {
            run.comparisons.reached(thing);
            return;
        }
        if shortest > 4 * within {
            break;
        }
    }
    run.fault(&format!("{thing}: {shortest:?}"), first.0);
}

fn sparse(tile: [u32; 2], fill: u32, elements: u8) -> Page {
    let mut page = Page::of_sides([65_536, 65_536], tile);
    page.elements = (0..elements).map(|number| Element::new(SHORT, &[b'a' + number])).collect();
    for element in &mut page.elements {
        element.set_range_and_fill(0, 1000, fill);
    }
    page
}

/// Puts a tile of one element into a page, packed where that is asked for.
fn put(page: &mut Page, index: u32, scores: &[i16], is_packed: bool, random: &mut Prng) {
    let content = match is_packed {
        true => packed(page, scores, INDEX, random).expect("near scores"),
        false => scores.iter().flat_map(|score| score.to_le_bytes()).collect(),
    };
    page.insert(0, Body::Tile(Tile { index, contents: vec![content] }));
}

/// The cells of a tile by row and column, each with its number inside.
fn cells(page: &Page, index: u32) -> impl Iterator<Item = (usize, [u32; ENTRY])> {
    let across = page.tiles_across() as u32;
    let (rows, columns) = (page.tile_rows, page.tile_columns);
    let (top, left) = (index / across * rows, index % across * columns);
    let entry = move |at: u32| [top + at / columns, left + at % columns, 0, index, at];
    (0..rows * columns).map(move |at| (at as usize, entry(at)))
}

/// One tile in both, of which some cells differ; one in the first alone, and one in the second.
fn few_tiles(run: &mut Run, tile: [u32; 2], with_packed: bool, random: &mut Prng) {
    let mut pages = [sparse(tile, 950, 1), sparse(tile, 950, 1)];
    let last = pages[0].tile_count() as u32 - 1;
    let across = pages[0].tiles_across() as u32;
    let (both, of_first, of_second) =
        (random.below(last as usize / 2) as u32, last, last / 2 + across);
    let scores = vec![random.between(900, 1000) as i16; (tile[0] * tile[1]) as usize];
    let mut changed = scores.clone();
    let mut entries = Vec::new();
    for (at, entry) in cells(&pages[0], both) {
        if random.one_in(1000) {
            changed[at] += 1;
            entries.push(entry);
        }
    }
    entries.extend(
        [of_first, of_second].iter().flat_map(|of| cells(&pages[0], *of)).map(|cell| cell.1),
    );
    entries.sort_unstable();
    put(&mut pages[0], both, &scores, with_packed, random);
    put(&mut pages[1], both, &changed, false, random);
    put(&mut pages[0], of_first, &scores, false, random);
    put(&mut pages[1], of_second, &scores, with_packed, random);
    let files = pages.map(|page| bytes_of(&page));
    let number = entries.len() as u64;
    let [first, second] = [&files[0][..], &files[1][..]];
    for files in [[first, second], [second, first]] {
        in_time(run, files, ALWAYS_ENOUGH, number, &entries, FEW_TILES);
        if !with_packed {
            in_time(run, files, 0, number, &entries, NO_MEMORY);
        }
    }
    in_time(run, [first, first], ALWAYS_ENOUGH, 0, &[], NONE);
}

/// No tile but one, the fourth, in both, with equal cells: these do not differ, all others do.
fn other_fills(run: &mut Run, elements: u8, thing: &str) {
    const TILE: [u32; 2] = [256, 256];
    let file = |fill| {
        let mut page = sparse(TILE, fill, elements);
        let contents = vec![vec![7; (2 * TILE[0] * TILE[1]) as usize]; usize::from(elements)];
        page.insert(0, Body::Tile(Tile { index: 3, contents }));
        bytes_of(&page)
    };
    let files = [file(1), file(2)];
    let equal = u64::from(TILE[0] * TILE[1]);
    let number = (SIDE * SIDE - equal) * u64::from(elements);
    let mut entries = Vec::new();
    let across = SIDE as u32 / TILE[1];
    let columns = (0..SIDE as u32).filter(|column| column / TILE[1] != 3);
    'rows: for row in 0.. {
        for column in columns.clone() {
            let tile = row / TILE[0] * across + column / TILE[1];
            let inside = row % TILE[0] * TILE[1] + column % TILE[1];
            for element in 0..u32::from(elements) {
                if entries.len() == MILLION {
                    break 'rows;
                }
                entries.push([row, column, element, tile, inside]);
            }
        }
    }
    for memory in [0, ALWAYS_ENOUGH] {
        in_time(run, [&files[0], &files[1]], memory, number, &entries, thing);
    }
}

/// The score of each tile is its index; of some in the second page it is another.
fn many_tiles(run: &mut Run, random: &mut Prng) {
    let mut page = page_of_many_tiles(random);
    let first = bytes_of(&page);
    let mut entries = Vec::new();
    for record in &mut page.records {
        if let Body::Tile(tile) = &mut record.body {
            if random.one_in(100) {
                tile.contents[0][0] ^= 1;
                entries.push([tile.index / 256, tile.index % 256, 0, tile.index, 0]);
            }
        }
    }
    entries.sort_unstable();
    let second = bytes_of(&page);
    in_time(run, [&first, &second], 0, entries.len() as u64, &entries, MANY_TILES);
}

/// Every tile is packed; in the second page one in ten has another cell.
fn many_cells(run: &mut Run, random: &mut Prng) {
    const TILE: [u32; 2] = [128, 128];
    let mut pages = [(); 2].map(|()| Page::of_sides([2048, 2048], TILE));
    for page in &mut pages {
        page.elements = vec![Element::new(SHORT, b"score")];
    }
    let mut scores = vec![900i16; 16_384];
    let equal = packed(&pages[0], &scores, INDEX, random).expect("near scores");
    scores[16_000] = 901;
    let other = packed(&pages[0], &scores, INDEX, random).expect("near scores");
    let mut entries = Vec::new();
    for index in 0..256 {
        let content = if random.one_in(10) {
            entries.extend(cells(&pages[0], index).nth(16_000).map(|(_, entry)| entry));
            &other
        } else {
            &equal
        };
        for (page, content) in pages.iter_mut().zip([&equal, content]) {
            page.insert(0, Body::Tile(Tile { index, contents: vec![content.clone()] }));
        }
    }
    entries.sort_unstable();
    let files = pages.map(|page| bytes_of(&page));
    let number = entries.len() as u64;
    in_time(run, [&files[0], &files[1]], 2 * 16_384, number, &entries, MANY_CELLS);
}

/// Pages of one tile each.
fn largest(run: &mut Run, random: &mut Prng) {
    const TILE: [u32; 2] = [4096, 128];
    let file = |score: i16, random: &mut Prng| {
        let mut page = Page::of_sides(TILE, TILE);
        page.elements = vec![Element::new(SHORT, b"score")];
        put(&mut page, 0, &vec![score; 524_288], true, random);
        bytes_of(&page)
    };
    let files = [file(900, random), file(901, random)];
    let entry = |at: u32| [at / TILE[1], at % TILE[1], 0, 0, at];
    let entries: Vec<[u32; ENTRY]> = (0..524_288).map(entry).collect();
    in_time(run, [&files[0], &files[1]], ALWAYS_ENOUGH, 524_288, &entries, LARGEST);
}
