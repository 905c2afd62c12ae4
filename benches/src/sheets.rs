//! Score sheets moved in and pages moved out, each against plain loops over the same bytes: they test
//! every number, as a move does before it writes one, and then write tile by tile, each number's two bytes
//! in the other order. The check of a page that is moved out is taken off. Each shape is taken short and
//! with four times the scores: the time for a score stays. Packed pages moved out, against their
//! unpacking.

use std::hint::black_box;
use std::time::{Duration, Instant};

use gvrs_tests::build::build;
use gvrs_tests::library;
use gvrs_tests::page::{Element, Page, SHORT};
use gvrs_tests::prng::Prng;
use gvrs_tests::second::cells::NO_COMPRESSOR;
use gvrs_tests::second::sheets::{sheet_in, Sheet, UNREAD};

use crate::milliseconds;
use crate::packed::{PackedPage, INDEX};
use crate::shapes::CEILING;
use crate::unpack::unpack_by_library;

/// A move takes at most so many times as long as the plain loops.
const BOUND: f64 = 3.0;
/// A packed page moved out takes at most so many times as long as its unpacking.
const PACKED_BOUND: f64 = 3.0;

/// Numbers of memory that let every tile be unpacked twice at most.
const MEMORY: usize = 524_288;

const ROUNDS: usize = 25;

/// Bytes of a sheet before its scores.
const HEAD: usize = 9;

/// Tiles, how many of them, and what scores they have.
struct Shape {
    name: &'static str,
    /// Rows and columns of a tile.
    tile: [u32; 2],
    /// Tiles down and across in the short sheet.
    tiles: [u32; 2],
    /// One score in so many is no -1; of 0 none.
    read: usize,
}

fn shapes() -> [Shape; 6] {
    [
        Shape { name: "tiles of 4000 x 128", tile: [4000, 128], tiles: [1, 4], read: 1 },
        Shape { name: "tiles of 128 x 4000", tile: [128, 4000], tiles: [4, 1], read: 1 },
        Shape { name: "tiles of 12 x 13", tile: [12, 13], tiles: [32, 320], read: 1 },
        Shape { name: "tiles of 1 x 113", tile: [1, 113], tiles: [400, 32], read: 1 },
        Shape { name: "tiles of 12 x 13, mostly -1", tile: [12, 13], tiles: [32, 320], read: 150 },
        Shape { name: "tiles of 128 x 256, all -1", tile: [128, 256], tiles: [4, 16], read: 0 },
    ]
}

/// Prints a line for each. True if no ratio is above its bound.
pub fn measure(pages: &[PackedPage]) -> bool {
    heading("a score sheet moved in, and out again", "plain loops");
    let mut within = true;
    for shape in shapes() {
        for times in [1, 4] {
            within &= measure_shape(&shape, times);
        }
    }
    if !within {
        println!("FAULT: the move of a sheet takes longer than its bound");
    }
    heading("a packed page moved out", "gvrs_unpack");
    let shorts = pages.iter().filter(|page| page.type_code == SHORT);
    let mut packed_within = true;
    for page in shorts {
        packed_within &= measure_packed(page);
    }
    if !packed_within {
        println!("FAULT: a packed page moved out takes longer than its bound");
    }
    within && packed_within
}

fn heading(name: &str, other: &str) {
    println!(
        "{name:44} {:>8} {:>9} {:>11} {other:>11} {:>6} {:>7}",
        "scores", "a score", "library", "ratio", "at most"
    );
}

/// A front and a sheet that fits it.
struct Given {
    front: Vec<u8>,
    sheet: Vec<u8>,
}

fn given(shape: &Shape, times: u32) -> Given {
    let [rows, columns] = [shape.tiles[0] * times * shape.tile[0], shape.tiles[1] * shape.tile[1]];
    let mut page = Page::of_sides([rows, columns], shape.tile);
    // Without sums over the records, which the plain loop has not either.
    page.checksums = false;
    let mut element = Element::new(SHORT, b"score");
    element.set_range_and_fill(0, 1000, u32::MAX);
    page.elements = vec![element];
    let built = build(&page);
    let mut random = Prng::new(20_240_614);
    let mut score = || match shape.read {
        0 => UNREAD,
        read if random.one_in(read) => random.below(1001) as i16,
        _ => UNREAD,
    };
    let scores = (0..rows * columns).map(|_| score()).collect();
    let sheet = Sheet { rows: rows as u16, columns: columns as u16, scores };
    Given { front: built.bytes[..built.starts[0]].to_vec(), sheet: sheet.bytes() }
}

/// Prints a line for each way; true if both are within their bounds. The library must give the second implementation's page, and
/// the sheet again.
fn measure_shape(shape: &Shape, times: u32) -> bool {
    let Given { front, sheet } = given(shape, times);
    let page = sheet_in(&front, 1, &sheet, CEILING).expect("the second implementation moves it in");
    let mut file = vec![0xff; page.len()];
    let mut back = vec![0xff; sheet.len()];
    let mut memory = vec![0; MEMORY];
    let scores = &sheet[HEAD..];
    let [mut cells, mut again] = [vec![0; scores.len()], vec![0; scores.len()]];
    let [mut of_in, mut of_out, mut of_check] = [Duration::MAX; 3];
    let [mut of_plain_in, mut of_plain_out] = [Duration::MAX; 2];
    // In turn, so that other work on the machine falls on all.
    for _ in 0..ROUNDS {
        of_in = of_in.min(time(|| {
            let file = black_box(&mut file[..]);
            let number = library::sheet_in_into(&front, 1, black_box(&sheet), file, &mut [0]);
            assert_eq!(number, 0, "{}: the library moves the sheet in", shape.name);
        }));
        of_plain_in = of_plain_in.min(time(|| {
            assert!(plain_in(shape, times, black_box(scores), black_box(&mut cells)));
        }));
        of_out =
            of_out.min(time(|| move_out(&file, NO_COMPRESSOR, &mut memory, black_box(&mut back))));
        of_check = of_check.min(time(|| {
            assert_eq!(library::check(black_box(&file)), (0, 0), "{}: accepted", shape.name);
        }));
        of_plain_out = of_plain_out.min(time(|| {
            assert!(plain_out(shape, times, black_box(&cells), black_box(&mut again)));
        }));
    }
    assert!(file == page, "{}: another page", shape.name);
    assert!(back == sheet, "{}: another sheet", shape.name);
    assert!(again == scores, "{}: the plain loops give other scores", shape.name);
    let name = |way| format!("{}, {way}", shape.name);
    let count = scores.len() / 2;
    let within = line(&name("in"), count, of_in, of_plain_in, BOUND);
    within & line(&name("out"), count, of_out.saturating_sub(of_check), of_plain_out, BOUND)
}

fn time(task: impl FnOnce()) -> Duration {
    let start = Instant::now();
    task();
    start.elapsed()
}

/// The scores of a sheet as the cells of its tiles, one tile behind the other; false if one is none.
fn plain_in(shape: &Shape, times: u32, scores: &[u8], cells: &mut [u8]) -> bool {
    if scores.chunks_exact(2).any(|two| is_none(i16::from_be_bytes([two[0], two[1]]))) {
        return false;
    }
    for_each_row(shape, times, |sheet_at, tile_at, length| {
        let row = &scores[sheet_at..sheet_at + length];
        for (from, to) in row.chunks_exact(2).zip(cells[tile_at..].chunks_exact_mut(2)) {
            (to[0], to[1]) = (from[1], from[0]);
        }
    });
    true
}

/// The other way round.
fn plain_out(shape: &Shape, times: u32, cells: &[u8], scores: &mut [u8]) -> bool {
    if cells.chunks_exact(2).any(|two| is_none(i16::from_le_bytes([two[0], two[1]]))) {
        return false;
    }
    for_each_row(shape, times, |sheet_at, tile_at, length| {
        let row = &cells[tile_at..tile_at + length];
        for (from, to) in row.chunks_exact(2).zip(scores[sheet_at..].chunks_exact_mut(2)) {
            (to[0], to[1]) = (from[1], from[0]);
        }
    });
    true
}

fn is_none(score: i16) -> bool {
    score < -1 || score > 1000
}

/// For each row of each tile, where it starts in the sheet, where in the cells, and its length, in bytes.
fn for_each_row(shape: &Shape, times: u32, mut take: impl FnMut(usize, usize, usize)) {
    let [tile_rows, tile_columns] = shape.tile.map(|side| side as usize);
    let [down, across] = [(shape.tiles[0] * times) as usize, shape.tiles[1] as usize];
    let mut tile_at = 0;
    for tile in 0..down * across {
        for row in 0..tile_rows {
            let first = (tile / across * tile_rows + row) * across + tile % across;
            take(2 * first * tile_columns, tile_at, 2 * tile_columns);
            tile_at += 2 * tile_columns;
        }
    }
}

fn move_out(file: &[u8], compressor: u32, memory: &mut [u32], sheet: &mut [u8]) {
    let sheet = black_box(sheet);
    let number = library::sheet_out_into(black_box(file), compressor, memory, sheet, &mut [0]);
    assert_eq!(number, 0, "the library moves the page out");
}

/// Prints one line; true if it is within its bound. The library must give the scores that were packed.
fn measure_packed(page: &PackedPage) -> bool {
    let mut sheet = vec![0; HEAD + 2 * page.bits.len()];
    let mut memory = vec![0; MEMORY];
    let [mut of_out, mut of_unpacking] = [Duration::MAX; 2];
    for _ in 0..ROUNDS {
        of_out = of_out.min(time(|| move_out(&page.file, INDEX, &mut memory, &mut sheet)));
        of_unpacking = of_unpacking.min(time(|| unpack_by_library(page, &mut memory)));
    }
    let scores =
        sheet[HEAD..].chunks_exact(2).map(|two| u32::from(two[0]) << 8 | u32::from(two[1]));
    assert!(scores.eq(page.bits.iter().copied()), "{}: other scores", page.name);
    line(&page.name, page.bits.len(), of_out, of_unpacking, PACKED_BOUND)
}

/// Prints one line; true if the ratio is within the bound.
fn line(name: &str, scores: usize, of_library: Duration, of_other: Duration, bound: f64) -> bool {
    let ratio = of_library.as_secs_f64() / of_other.as_secs_f64();
    let each = of_library.as_nanos() as f64 / scores as f64;
    let [library, other] = [of_library, of_other].map(milliseconds);
    println!(
        "{name:44} {scores:>8} {each:>6.2} ns {library:>8.2} ms {other:>8.2} ms {ratio:>6.2} \
         {bound:>7.2}"
    );
    ratio <= bound
}
