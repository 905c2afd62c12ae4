//! One tile stored in an open page of nearly 16 MiB, against one check of the file that was opened:
//! over a tile that is there, over a compressed one, into a free record, and at the end. Beside it the
//! same without the check of the page, as a caller has it who makes many calls on one page.

use std::hint::black_box;
use std::time::{Duration, Instant};

use gvrs_tests::build::bytes_of;
use gvrs_tests::library;
use gvrs_tests::page::{Body, Page, Record, Tile};
use gvrs_tests::second::correct::{correct, Call};

use crate::shapes::CEILING;
use crate::{milliseconds, shortest, ENOUGH, MOST_TIMES};

/// A storing takes at most so many times as long as a check.
const BOUND: f64 = 1.3;
/// And so without the check of the page.
const UNCHECKED_BOUND: f64 = 0.1;

extern "C" {
    fn gvrs_bench_store_on(
        file: *mut u8,
        file_n: u64,
        n: u64,
        tile: u64,
        cells: *const u8,
        cells_n: u64,
    ) -> u32;
}

/// Tiles of Integers, as many as a file takes beside one more record.
struct Shape {
    name: &'static str,
    /// Rows and columns of a tile.
    tile: [u32; 2],
    /// Tiles down and across.
    tiles: [u32; 2],
}

const SHAPES: [Shape; 2] = [
    Shape { name: "65,536 tiles of 56 Integers", tile: [7, 8], tiles: [256, 256] },
    Shape { name: "16 tiles of 4095 x 64 Integers", tile: [4095, 64], tiles: [16, 1] },
];

/// What a tile is before it is stored.
#[derive(Clone, Copy, PartialEq)]
enum Before {
    Uncompressed,
    Compressed,
    /// Its place is free.
    Removed,
    Absent,
}

const BEFORE: [(Before, &str); 4] = [
    (Before::Uncompressed, "over a tile"),
    (Before::Compressed, "over a compressed tile, at the end"),
    (Before::Removed, "into a free record"),
    (Before::Absent, "at the end"),
];

/// Prints a line for each. True if no ratio is above the bound.
pub fn measure() -> bool {
    println!(
        "{:32} {:46} {:>9} {:>11} {:>11} {:>6} {:>7} {:>11} {:>6} {:>7}",
        "a tile stored in a page of",
        "how",
        "bytes",
        "storing",
        "check",
        "ratio",
        "at most",
        "unchecked",
        "ratio",
        "at most"
    );
    let mut within = true;
    for shape in &SHAPES {
        for (before, how) in BEFORE {
            for tile in [0, shape.count() - 1] {
                let [storing, unchecked] = measure_shape(shape, before, how, tile);
                within &= storing <= BOUND && unchecked <= UNCHECKED_BOUND;
            }
        }
    }
    if !within {
        println!("FAULT: a tile is stored in more than {BOUND} times the time of a check, or {UNCHECKED_BOUND}");
    }
    within
}

impl Shape {
    fn count(&self) -> u32 {
        self.tiles[0] * self.tiles[1]
    }

    /// The file with all tiles, or without the one that is absent.
    fn file(&self, tile: u32, before: Before) -> Vec<u8> {
        let sides = [0, 1].map(|side| self.tile[side] * self.tiles[side]);
        let mut page = Page::of_sides(sides, self.tile);
        let whole = page.uncompressed_size(0);
        for index in 0..self.count() {
            let length = match before {
                Before::Absent if index == tile => continue,
                Before::Compressed if index == tile => 1,
                _ => whole,
            };
            let contents = vec![(0..length).map(|at| (at as u32 ^ index) as u8).collect()];
            page.records.push(Record::new(Body::Tile(Tile { index, contents })));
        }
        bytes_of(&page)
    }
}

/// Prints one line; both ratios. The library must leave the second implementation's page.
fn measure_shape(shape: &Shape, before: Before, how: &str, tile: u32) -> [f64; 2] {
    let file = shape.file(tile, before);
    let of_check = shortest(|| assert_eq!(library::check(black_box(&file)), (0, 0)));
    let mut buffer = file.clone();
    buffer.resize(CEILING, 0xa7);
    let mut n = call(&mut buffer, file.len() as u64, &Call::Open { time: 1 });
    if before == Before::Removed {
        n = call(&mut buffer, n, &Call::Remove { tile: tile.into() });
    }
    let bytes = shape.tile[0] as usize * shape.tile[1] as usize * 4;
    let cells: Vec<u8> = (0..bytes).map(|at| (at ^ (at >> 8)) as u8).collect();
    let store = Call::Store { tile: tile.into(), cells: cells.clone() };
    let mut length = n;
    let (of_storing, stored) = shortest_storing(&buffer, |page| length = call(page, n, &store));
    let expected = correct(&buffer, n, &store).expect("the second implementation stores the tile");
    assert!(stored[..length as usize] == expected, "{}, {how}: another page", shape.name);
    let (of_unchecked, alike) = shortest_storing(&buffer, |page| {
        store_on(page, n, tile, black_box(&cells));
    });
    assert!(alike == stored, "{}, {how}: another page without the check", shape.name);
    let ratios = [of_storing, of_unchecked].map(|time| time.as_secs_f64() / of_check.as_secs_f64());
    println!(
        "{:32} {:46} {:>9} {:>8.2} ms {:>8.2} ms {:>6.2} {BOUND:>7.2} {:>8.2} ms {:>6.3} {:>7.3}",
        shape.name,
        format!("{how}, tile {tile}"),
        file.len(),
        milliseconds(of_storing),
        milliseconds(of_check),
        ratios[0],
        milliseconds(of_unchecked),
        ratios[1],
        UNCHECKED_BOUND,
    );
    ratios
}

/// The shortest of some repetitions, each on the page as it was before, and the buffer behind the last.
fn shortest_storing(buffer: &[u8], mut storing: impl FnMut(&mut [u8])) -> (Duration, Vec<u8>) {
    let begin = Instant::now();
    let mut shortest = Duration::MAX;
    let mut stored = buffer.to_vec();
    for _ in 0..MOST_TIMES {
        stored.copy_from_slice(buffer);
        let start = Instant::now();
        storing(black_box(&mut stored));
        shortest = shortest.min(start.elapsed());
        if begin.elapsed() > ENOUGH {
            break;
        }
    }
    (shortest, stored)
}

fn store_on(buffer: &mut [u8], n: u64, tile: u32, cells: &[u8]) {
    let (bytes, long) = (buffer.as_mut_ptr(), buffer.len() as u64);
    let (from, count) = (cells.as_ptr(), cells.len() as u64);
    // Both slices are alive for the whole call and do not overlap.
    let number = unsafe { gvrs_bench_store_on(bytes, long, n, tile.into(), from, count) };
    assert_eq!(number, 0, "the library stores the tile");
}

fn call(buffer: &mut [u8], n: u64, call: &Call) -> u64 {
    let mut out = [0];
    let number = library::correct_into(buffer, n, call, &mut out);
    assert_eq!(number, 0, "the library does the call");
    out[0]
}
