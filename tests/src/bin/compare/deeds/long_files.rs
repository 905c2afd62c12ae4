//! Deeds at the ceilings: the whole of a grid of 65,536 by 65,536 with few tile records, 65,536 tile
//! records, millions of packed cells, and the largest packed tile, each within a second. What comes
//! out of 2^32 cells is known from the description; parts of them are asked of both.

use std::time::{Duration, Instant};

use gvrs_tests::build::{build, bytes_of};
use gvrs_tests::page::{Body, Element, Page, Tile, TileDirectory, SHORT};
use gvrs_tests::prng::Prng;
use gvrs_tests::second::deeds::{Deed, CERTAIN, DOUBTFUL, FIRST, UNREAD};
use gvrs_tests::second::rectangles::Rectangle;

use super::ask::is_the_deed;
use super::scored::{graded, packed};
use crate::face::mixed::position;
use crate::face::sample_sums::rectangle;
use crate::reads::ask::Asked;
use crate::reads::described::{Described, Inside};
use crate::reads::long_files::page_of_many_tiles;
use crate::run::Run;

const SORT: &str = "deeds at the ceilings";

const WHOLE: &str = "the whole of 65,536 by 65,536 cells, few tiles, within a second";
const BUT_THE_EDGES: &str = "the same without its first and last rows and columns";
const NO_MEMORY: &str = "the same without memory, no tile packed";
const NO_TILE: &str = "2^32 fills and no score, within a second";
const LAST_REFUSED: &str = "14 from the last tile of 65,536, and unread without it";
const MANY_TILES: &str = "every cell of 65,536 tiles, within a second";
const MANY_CELLS: &str = "4,194,304 packed cells, certain and doubtful, within a second";
const LARGEST: &str = "a packed tile of 524,288 Shorts, that many numbers of memory";

const SIDE: u64 = 65_536;
const ALL: [u64; 4] = [0, 0, SIDE, SIDE];
/// Numbers of memory that let every tile be unpacked once.
const ALWAYS_ENOUGH: usize = 524_288;
/// Of packed contents.
const INDEX: u8 = 5;
const COMPRESSOR: u32 = INDEX as u32;

pub fn section(run: &mut Run, random: &mut Prng) {
    for thing in [WHOLE, BUT_THE_EDGES, NO_MEMORY, NO_TILE] {
        run.deeds.want(thing);
    }
    for thing in [LAST_REFUSED, MANY_TILES, MANY_CELLS, LARGEST] {
        run.deeds.want(thing);
    }
    for tile in [[256, 256], [4096, 16], [16, 4096]] {
        few_tiles(run, tile, true, random);
        few_tiles(run, tile, false, random);
    }
    for tile in [[4096, 128], [128, 4096]] {
        few_tiles(run, tile, true, random);
    }
    no_tile(run);
    last_refused(run, random);
    many_tiles(run, random);
    many_cells(run, random);
    largest(run, random);
}

/// Asks the library until it has answered within a second, three times at most, as other work may
/// come between, but not again where it has taken very long.
fn in_time(
    run: &mut Run,
    file: &[u8],
    rectangle: Rectangle,
    memory: usize,
    expected: &Deed,
    thing: &str,
) {
    let mut memory = vec![950; memory];
    let mut shortest = Duration::MAX;
    for _ in 0..3 {
        let begin = Instant::now();
        let same = is_the_deed(file, rectangle, COMPRESSOR, &mut memory, expected);
        shortest = shortest.min(begin.elapsed());
        if !same {
            run.fault(&format!("{thing}: {rectangle:?}: not {expected:?}"), file);
            return;
        }
        if shortest < Duration::from_secs(1) {
            run.deeds.reached(thing);
            return;
        }
        if shortest > Duration::from_secs(4) {
            break;
        }
    }
    run.fault(&format!("{thing}: {rectangle:?}: {shortest:?}"), file);
}

/// Asks both, with so many numbers of memory; then as `in_time`.
fn both_in_time(
    run: &mut Run,
    asked: &Asked,
    sides: [u64; 4],
    memory: usize,
    expected: &Deed,
    thing: &str,
) {
    let rectangle = rectangle(sides);
    let answer = run.deed_with(SORT, asked, rectangle, COMPRESSOR, &[memory]);
    if answer.is_some_and(|answer| answer != *expected) {
        run.fault(&format!("{thing}: {answer:?}, expected {expected:?}"), asked.file);
    } else if answer.is_some() {
        in_time(run, &asked.lent, rectangle, memory, expected, thing);
    }
}

/// A page of scores with few tile records, and the scores of these.
struct Sparse {
    page: Page,
    tiles: Vec<(Inside, Vec<i16>)>,
}

impl Sparse {
    /// A grid of 65,536 by 65,536.
    fn new(tile: [u32; 2]) -> Sparse {
        let mut page = Page::of_sides([65_536, 65_536], tile);
        page.elements = vec![Element::new(SHORT, b"score")];
        page.elements[0].set_range_and_fill(0, 1000, 950);
        Sparse { page, tiles: Vec::new() }
    }

    /// A tile of scores that are certain but for one; packed where that is asked for.
    fn put(&mut self, tile: (usize, usize), is_packed: bool, random: &mut Prng) {
        let cells = (self.page.tile_rows * self.page.tile_columns) as usize;
        let mut scores = vec![random.between(900, 1000) as i16; cells];
        for _ in 0..100 {
            scores[random.below(cells)] = random.between(900, 1000) as i16;
        }
        scores[random.below(cells)] = random.long() as i16;
        let packed = is_packed.then(|| packed(&self.page, &scores, INDEX, random));
        let content = match packed {
            Some(content) => content.expect("a tile of equal scores can be packed"),
            None => scores.iter().flat_map(|score| score.to_le_bytes()).collect(),
        };
        let index = (tile.0 * self.page.tiles_across() + tile.1) as u32;
        self.page.insert(0, Body::Tile(Tile { index, contents: vec![content] }));
        self.tiles.push((Inside { tile, cell: (0, 0), element: 0 }, scores));
    }

    /// What the description says of a rectangle of the grid.
    fn deed(&self, rectangle: Rectangle) -> Deed {
        let built = build(&self.page);
        let described = Described::new(&self.page, &built);
        let columns = self.page.tile_columns as usize;
        let mut found = Vec::new();
        for (inside, scores) in &self.tiles {
            for (number, score) in scores.iter().enumerate() {
                let cell = (number / columns, number % columns);
                let spot = described.spot(Inside { cell, ..*inside }).expect("in the grid");
                found.extend(position(rectangle, spot).map(|_| *score));
            }
        }
        graded(FIRST, rectangle.cells() as u64 - found.len() as u64, found)
    }
}

/// Tiles in every corner and in the middle, stored and packed, or stored ones alone.
fn few_tiles(run: &mut Run, tile: [u32; 2], with_packed: bool, random: &mut Prng) {
    let cells = (tile[0] * tile[1]) as usize;
    let mut sparse = Sparse::new(tile);
    let [down, across] = [sparse.page.tiles_down(), sparse.page.tiles_across()];
    let corners = [(0, 0), (0, across - 1), (down - 1, 0), (down - 1, across - 1)];
    for (number, corner) in corners.into_iter().enumerate() {
        sparse.put(corner, with_packed && number % 2 == 1, random);
    }
    sparse.put((down / 2, random.between(1, across - 2)), with_packed, random);
    let file = bytes_of(&sparse.page);
    let inner = [1, 1, SIDE - 2, SIDE - 2];
    for (sides, thing) in [(ALL, WHOLE), (inner, BUT_THE_EDGES)] {
        let rectangle = rectangle(sides);
        let expected = sparse.deed(rectangle);
        in_time(run, &file, rectangle, ALWAYS_ENOUGH, &expected, thing);
        in_time(run, &file, rectangle, cells, &expected, thing);
        if !with_packed {
            in_time(run, &file, rectangle, 0, &expected, NO_MEMORY);
        }
    }
    strips(run, &file, cells);
}

/// The first and the last rows and columns, of both.
fn strips(run: &mut Run, file: &[u8], cells: usize) {
    let asked = Asked::new(file);
    let strips = [[0, 0, 3, SIDE], [SIDE - 3, 0, 3, SIDE], [0, 0, SIDE, 3], [0, SIDE - 3, SIDE, 3]];
    for sides in strips {
        run.deed_with(SORT, &asked, rectangle(sides), COMPRESSOR, &[cells, ALWAYS_ENOUGH]);
    }
}

/// Whether the directory lists the whole grid or no tile at all.
fn no_tile(run: &mut Run) {
    let expected = Deed::by_first(UNREAD, 1 << 32, None);
    for lists_all in [true, false] {
        let mut page = Sparse::new([256, 256]).page;
        if !lists_all {
            page.records[0].body = Body::TileDirectory(TileDirectory::compact(0, 0, 0, 0));
        }
        let file = bytes_of(&page);
        for memory in [0, ALWAYS_ENOUGH] {
            in_time(run, &file, rectangle(ALL), memory, &expected, NO_TILE);
        }
        let one_less = Deed::by_first(UNREAD, (1 << 32) - SIDE, None);
        for sides in [[1, 0, SIDE - 1, SIDE], [0, 0, SIDE, SIDE - 1]] {
            in_time(run, &file, rectangle(sides), 0, &one_less, NO_TILE);
        }
    }
}

/// The last tile is malformed; its record is the first in the file.
fn last_refused(run: &mut Run, random: &mut Prng) {
    let mut sparse = Sparse::new([256, 256]);
    sparse.put((0, 0), true, random);
    let malformed = Tile { index: 65_535, contents: vec![vec![INDEX; 100]] };
    sparse.page.insert(0, Body::Tile(malformed));
    let built = build(&sparse.page);
    let refused = Deed::Refused((14, built.starts[0] as u64));
    in_time(run, &built.bytes, rectangle(ALL), SIDE as usize, &refused, LAST_REFUSED);
    for sides in [[0, 0, SIDE - 256, SIDE], [0, 0, SIDE, SIDE - 256]] {
        let rectangle = rectangle(sides);
        let expected = sparse.deed(rectangle);
        in_time(run, &built.bytes, rectangle, SIDE as usize, &expected, LAST_REFUSED);
    }
}

/// The score of each tile is its index, in 16 bits.
fn many_tiles(run: &mut Run, random: &mut Prng) {
    let file = bytes_of(&page_of_many_tiles(random));
    let graded = |grade, lowest| Deed::by_first(grade, 0, Some(lowest));
    let deeds = [
        // -1 among them.
        ([0, 0, 256, 256], Deed::by_first(UNREAD, 1, Some(i16::MIN))),
        ([0, 0, 128, 256], graded(DOUBTFUL, 0)),
        ([3, 132, 1, 101], graded(CERTAIN, 900)),
        ([3, 131, 1, 102], graded(DOUBTFUL, 899)),
        ([3, 132, 1, 102], graded(DOUBTFUL, 900)),
    ];
    for (sides, expected) in deeds {
        in_time(run, &file, rectangle(sides), 0, &expected, MANY_TILES);
    }
}

/// Every tile is one of three packed ones; then one cell of the last tile is 899.
fn many_cells(run: &mut Run, random: &mut Prng) {
    let mut page = Page::of_sides([2048, 2048], [128, 128]);
    page.elements = vec![Element::new(SHORT, b"score")];
    let mut scores = [[900; 16_384], [950; 16_384], [1000; 16_384]];
    for tile in &mut scores {
        for _ in 0..100 {
            tile[random.below(16_384)] = random.between(900, 1000) as i16;
        }
    }
    let mut content = |scores: &[i16]| packed(&page, scores, INDEX, random).expect("near scores");
    let contents = [content(&scores[0]), content(&scores[1]), content(&scores[2])];
    scores[0][16_383] = 899;
    let doubtful = content(&scores[0]);
    for index in 0..256 {
        let contents = vec![contents[index as usize % 3].clone()];
        page.insert(0, Body::Tile(Tile { index, contents }));
    }
    for grade in [CERTAIN, DOUBTFUL] {
        if grade == DOUBTFUL {
            if let Body::Tile(tile) = &mut page.records[0].body {
                tile.contents[0].clone_from(&doubtful);
            }
        }
        let lowest = Some(if grade == CERTAIN { 900 } else { 899 });
        let expected = Deed::by_first(grade, 0, lowest);
        let file = bytes_of(&page);
        let whole = [0, 0, 2048, 2048];
        both_in_time(run, &Asked::new(&file), whole, 16_384, &expected, MANY_CELLS);
    }
}

/// A page of one tile. With less memory each of its cells takes an unpacking.
fn largest(run: &mut Run, random: &mut Prng) {
    let mut sparse = Sparse::new([4096, 128]);
    [sparse.page.grid_rows, sparse.page.grid_columns] = [4096, 128];
    sparse.page.list_whole_grid();
    sparse.put((0, 0), true, random);
    let file = bytes_of(&sparse.page);
    let asked = Asked::new(&file);
    let whole = [0, 0, 4096, 128];
    let expected = sparse.deed(rectangle(whole));
    both_in_time(run, &asked, whole, ALWAYS_ENOUGH, &expected, LARGEST);
    run.deed(SORT, &asked, rectangle([4094, 127, 2, 1]), COMPRESSOR);
}
