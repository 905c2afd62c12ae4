//! Every cell of one element by `gvrs_cells`: of files of 16 MiB, against CRC32C of as many bytes,
//! byte by byte; and of a packed tile, against its unpacking by `gvrs_unpack` and by the second
//! implementation. The scores of a rectangle judged by `gvrs_deed`: against its cells by `gvrs_cells`, of a
//! packed tile against its unpacking, and of tiles of one symbol against CRC32C of as many bytes as cells.

use std::hint::black_box;
use std::time::Duration;

use gvrs_tests::library::{self, Lent};
use gvrs_tests::page::SHORT;
use gvrs_tests::second::cells::{Opened, NO_COMPRESSOR, UNPACKED};
use gvrs_tests::second::crc32c::crc32c;
use gvrs_tests::second::rectangles::{Rectangle, Rooms};

use crate::packed::{tiles_of_one_symbol, PackedPage, INDEX};
use crate::unpack::{unpack_by_library, unpack_by_second};
use crate::{milliseconds, shapes, shortest};

/// All cells of a file take at most so many times as long as the table loop over its bytes.
const BOUND: f64 = 4.0;
/// The cells of a packed tile, and its scores, take at most so many times as long as its unpacking by
/// `gvrs_unpack`, which reads a content twice: first to judge it, then to write.
const PACKED_BOUND: f64 = 1.2;
/// In memory that is lent, a content is judged while it is written: its cells take at most so many times as
/// long as its unpacking by the second implementation.
const SECOND_BOUND: f64 = 0.8;
/// The scores of tiles of one symbol take at most so many times as long as the table loop over as many
/// bytes as there are cells.
const ONE_SYMBOL_BOUND: f64 = 2.0;

/// The scores of a rectangle take at most so many times as long as its cells.
const SCORES_BOUND: f64 = 1.5;

/// Numbers of memory that let every tile be unpacked once.
const MEMORY: usize = 524_288;

/// Prints a line for each file. True if no ratio is above its bound.
pub fn measure(pages: &[PackedPage]) -> bool {
    heading("every cell, 16 MiB", "table loop");
    let files = [
        ("few large tiles of Integers", shapes::few_large_tiles(true)),
        ("few large tiles of Shorts", shapes::few_large_tiles_of_shorts()),
        ("65,536 small tiles of Integers", shapes::many_small_tiles(true)),
    ];
    let ratios = files.map(|(name, file)| measure_file(name, &file));
    let mut within = judge("every cell of a file", &ratios, BOUND);
    heading("every cell of a packed tile of 1 MiB", "gvrs_unpack");
    let ratios: Vec<f64> = pages.iter().map(measure_packed).collect();
    within &= judge("every cell of a packed tile", &ratios, PACKED_BOUND);
    heading("every cell of a packed tile of 1 MiB", "second");
    let ratios: Vec<f64> = pages.iter().map(measure_against_second).collect();
    within &= judge("every cell of a packed tile, unpacked once,", &ratios, SECOND_BOUND);
    heading("scores of a packed tile of 1 MiB judged", "gvrs_unpack");
    let of_shorts = pages.iter().filter(|page| page.type_code == SHORT);
    let ratios: Vec<f64> = of_shorts.map(measure_packed_scores).collect();
    within &= judge("the scores of a packed tile", &ratios, PACKED_BOUND);
    heading("scores of packed tiles of one symbol judged", "table loop");
    within &= judge("the scores of tiles of one symbol", &[measure_one_symbol()], ONE_SYMBOL_BOUND);
    heading("scores of a rectangle judged", "gvrs_cells");
    let file = shapes::few_large_tiles_of_shorts();
    let ratios = [32_768, 61_440].map(|rows| measure_scores(&file, rows));
    within &= judge("the scores of a rectangle", &ratios, SCORES_BOUND);
    within
}

fn heading(name: &str, other: &str) {
    println!(
        "{name:44} {:>8} {:>11} {other:>11} {:>6} {:>7}",
        "cells", "library", "ratio", "at most"
    );
}

fn judge(what: &str, ratios: &[f64], bound: f64) -> bool {
    let within = ratios.iter().all(|ratio| *ratio <= bound);
    if !within {
        println!("FAULT: {what} takes more than {bound} times as long");
    }
    within
}

/// Room for all cells of a page.
struct Room {
    memory: Vec<u32>,
    kinds: Vec<u32>,
    bits: Vec<u32>,
}

impl Room {
    fn new(rectangle: Rectangle) -> Room {
        let cells = rectangle.cells() as usize;
        Room { memory: vec![0; MEMORY], kinds: vec![0; cells], bits: vec![0; cells] }
    }

    fn read(&mut self, file: &[u8], rectangle: Rectangle, compressor: u32) {
        let Room { memory, kinds, bits } = self;
        let lent = Lent { memory, kinds: black_box(kinds), bits: black_box(bits) };
        let number = library::cells_into(black_box(file), rectangle, compressor, lent, &mut [0]);
        assert_eq!(number, 0, "the library reads the cells");
    }
}

/// The whole grid.
fn whole_grid(file: &[u8]) -> Rectangle {
    let (_, [rows, columns, ..]) = Opened::checked(file).page();
    Rectangle { element: 0, row: 0, column: 0, rows, columns }
}

/// Prints one line; the ratio. The library must give the second implementation's cells.
fn measure_file(name: &str, file: &[u8]) -> f64 {
    let grid = whole_grid(file);
    let mut room = Room::new(grid);
    let of_library = shortest(|| room.read(file, grid, NO_COMPRESSOR));
    let cells = room.kinds.len();
    let area = Opened::checked(file).area(grid, NO_COMPRESSOR, Rooms::of(cells as u64));
    assert!([&room.kinds[..], &room.bits] == area.taken(), "{name}: other cells");
    let of_table_loop = shortest(|| {
        black_box(crc32c(black_box(file)));
    });
    line(name, cells, [of_library, of_table_loop], BOUND)
}

/// Prints one line; the ratio. The library must give the cells that were packed.
fn measure_packed(page: &PackedPage) -> f64 {
    let grid = whole_grid(&page.file);
    let mut room = Room::new(grid);
    let of_cells = shortest(|| room.read(&page.file, grid, INDEX));
    let unpacked = room.kinds.iter().all(|kind| *kind == UNPACKED);
    assert!(unpacked && room.bits == page.bits, "{}: other cells", page.name);
    let of_unpacking = shortest(|| unpack_by_library(page, &mut room.bits));
    line(&page.name, page.bits.len(), [of_cells, of_unpacking], PACKED_BOUND)
}

/// Prints one line; the ratio.
fn measure_against_second(page: &PackedPage) -> f64 {
    let grid = whole_grid(&page.file);
    let mut room = Room::new(grid);
    let of_cells = shortest(|| room.read(&page.file, grid, INDEX));
    line(&page.name, page.bits.len(), [of_cells, unpack_by_second(page)], SECOND_BOUND)
}

/// Prints one line; the ratio. The library must give the second implementation's grade.
fn measure_packed_scores(page: &PackedPage) -> f64 {
    let grid = whole_grid(&page.file);
    let mut room = Room::new(grid);
    let of_scores = judged(&page.file, grid, INDEX, &mut room.memory);
    let of_unpacking = shortest(|| unpack_by_library(page, &mut room.bits));
    line(&page.name, page.bits.len(), [of_scores, of_unpacking], PACKED_BOUND)
}

/// Prints one line; the ratio.
fn measure_one_symbol() -> f64 {
    let file = tiles_of_one_symbol();
    let grid = whole_grid(&file);
    let cells = grid.cells() as usize;
    let of_scores = judged(&file, grid, INDEX, &mut vec![0; MEMORY]);
    let bytes = vec![0x5a; cells];
    let of_table_loop = shortest(|| {
        black_box(crc32c(black_box(&bytes)));
    });
    let each = of_scores.as_nanos() as f64 / cells as f64;
    let name = format!("64 tiles of 524,288 cells, {each:.1} ns a cell");
    line(&name, cells, [of_scores, of_table_loop], ONE_SYMBOL_BOUND)
}

/// How long the library takes to judge the scores. It must give the second implementation's grade.
fn judged(file: &[u8], rectangle: Rectangle, compressor: u32, memory: &mut [u32]) -> Duration {
    let (grade, numbers) = Opened::checked(file).deed(rectangle, compressor).as_numbers();
    shortest(|| {
        let mut out = [0; 4];
        let number = library::deed_into(black_box(file), rectangle, compressor, memory, &mut out);
        assert_eq!((number, out), (grade, numbers), "the library judges the scores");
    })
}

/// Prints one line; the ratio. The rows are of tiles that are all stored.
fn measure_scores(file: &[u8], rows: u64) -> f64 {
    let rectangle = Rectangle { rows, ..whole_grid(file) };
    let mut room = Room::new(rectangle);
    let of_cells = shortest(|| room.read(file, rectangle, NO_COMPRESSOR));
    let of_scores = judged(file, rectangle, NO_COMPRESSOR, &mut room.memory);
    let cells = room.kinds.len();
    line("few large tiles of Shorts", cells, [of_scores, of_cells], SCORES_BOUND)
}

fn line(name: &str, cells: usize, times: [Duration; 2], bound: f64) -> f64 {
    let ratio = times[0].as_secs_f64() / times[1].as_secs_f64();
    let [library, other] = times.map(milliseconds);
    println!("{name:44} {cells:>8} {library:>8.2} ms {other:>8.2} ms {ratio:>6.2} {bound:>7.2}");
    ratio
}
