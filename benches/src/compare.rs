//! Two pages compared by `gvrs_compare`: of 16 MiB, with few cells differing and with all differing and
//! listed, against CRC32C of the bytes of one, byte by byte; packed tiles, all cells differing and listed,
//! against the unpacking of both by `gvrs_unpack`; grids of 65,536 by 65,536 with few tiles, or with other
//! fills, against a second; and, without a bound, packed tiles of equal cells.

use std::hint::black_box;
use std::time::{Duration, Instant};

use gvrs_tests::build::bytes_of;
use gvrs_tests::library;
use gvrs_tests::page::{Body, Element, Page, Record, Tile, INTEGER, SHORT};
use gvrs_tests::second::cells::NO_COMPRESSOR;
use gvrs_tests::second::compare::ENTRY;
use gvrs_tests::second::crc32c::crc32c;

use crate::milliseconds;
use crate::packed::{raised_pages, tiles_of_one_symbol, PackedPage, INDEX};
use crate::unpack::unpack_by_library;

/// Few cells differ: at most so many times as long as the table loop over one page's bytes.
const FEW: f64 = 6.0;
/// All cells differ, and all are listed.
const ALL: f64 = 16.0;
/// Packed tiles, all cells differing and listed: so many times as long as the unpacking of both.
const PACKED: f64 = 3.5;
/// Grids of 65,536 by 65,536: so many seconds.
const LARGE: f64 = 1.0;

/// A measurement is repeated until this much time has gone.
const ENOUGH: Duration = Duration::from_millis(1500);
/// Numbers of memory that let every tile be unpacked as seldom as can be.
const MEMORY: usize = 1_048_576;
/// Entries of a long list.
const MILLION: usize = 1_000_000;

/// Prints a line for each pair. True if no ratio is above its bound.
pub fn measure(pages: &[PackedPage]) -> bool {
    heading("pages of 16 MiB compared", "table loop");
    let mut within = true;
    for (name, page) in shapes() {
        within &= measure_few(name, &page) <= FEW;
        within &= measure_all(name, &page) <= ALL;
    }
    heading("packed tiles of 1 MiB compared, all differing", "gvrs_unpack");
    for (first, second) in pages.iter().zip(raised_pages(1)) {
        within &= measure_packed(first, &second) <= PACKED;
    }
    heading("65,536 by 65,536 cells compared", "a second");
    within &= measure_few_tiles() <= LARGE;
    within &= measure_other_fills() <= LARGE;
    measure_equal_tiles();
    if !within {
        println!("FAULT: a comparison takes longer than its bound");
    }
    within
}

fn heading(name: &str, other: &str) {
    println!(
        "{name:56} {:>11} {:>11} {other:>11} {:>6} {:>7}",
        "differing", "library", "ratio", "at most"
    );
}

fn line(name: &str, differing: u64, times: [Duration; 2], bound: &str) -> f64 {
    let ratio = times[0].as_secs_f64() / times[1].as_secs_f64();
    let [library, other] = times.map(milliseconds);
    println!("{name:56} {differing:>11} {library:>8.2} ms {other:>8.2} ms {ratio:>6.2} {bound:>7}");
    ratio
}

fn at_most(bound: f64) -> String {
    format!("{bound:.2}")
}

/// Pages of nearly 16 MiB, every tile stored, every byte 0x5a.
fn shapes() -> [(&'static str, Page); 3] {
    let large = |type_code, columns| {
        let mut page = Page::of_sides([65_536, columns], [4096, columns]);
        page.elements = vec![Element::new(type_code, b"z")];
        page
    };
    let [integers, shorts] = [large(INTEGER, 63), large(SHORT, 127)];
    let small = Page::of_sides([256 * 7, 256 * 8], [7, 8]);
    [
        ("16 large tiles of Integers", stored(integers)),
        ("16 large tiles of Shorts", stored(shorts)),
        ("65,536 small tiles of Integers", stored(small)),
    ]
}

fn stored(mut page: Page) -> Page {
    let length = page.uncompressed_size(0);
    for index in 0..page.tile_count() as u32 {
        let tile = Tile { index, contents: vec![vec![0x5a; length]] };
        page.records.push(Record::new(Body::Tile(tile)));
    }
    page
}

/// The page with the content of each tile changed.
fn changed(page: &Page, change: impl Fn(&mut Vec<u8>)) -> Vec<u8> {
    let mut page = page.clone();
    for record in &mut page.records {
        if let Body::Tile(tile) = &mut record.body {
            change(&mut tile.contents[0]);
        }
    }
    bytes_of(&page)
}

/// Two pages and what their comparison takes.
struct Pair<'a> {
    files: [&'a [u8]; 2],
    compressor: u32,
    /// Of cells that differ.
    number: u64,
    memory: Vec<u32>,
    list: Vec<u32>,
}

impl<'a> Pair<'a> {
    /// With a list of so many entries.
    fn new(files: [&'a [u8]; 2], compressor: u32, number: u64, entries: usize) -> Pair<'a> {
        let (memory, list) = (vec![0; MEMORY], vec![u32::MAX; ENTRY * entries]);
        Pair { files, compressor, number, memory, list }
    }

    /// It must give the number.
    fn compare(&mut self) {
        let [first, second] = self.files.map(|file| (file, self.compressor));
        let mut out = [u64::MAX; 2];
        let list = black_box(&mut self.list[..]);
        let answer =
            library::compare_into(black_box(first), second, &mut self.memory, list, &mut out);
        assert_eq!((answer, out), (0, [self.number, 0]), "the library compares the pages");
    }

    /// The shortest times of the comparison and of another task, in turn, so that other work on the
    /// machine falls on both. All of the list must be written.
    fn against(mut self, mut other: impl FnMut()) -> [Duration; 2] {
        let begin = Instant::now();
        let mut shortest = [Duration::MAX; 2];
        while begin.elapsed() < ENOUGH {
            shortest[0] = shortest[0].min(time(|| self.compare()));
            shortest[1] = shortest[1].min(time(&mut other));
        }
        assert!(!self.list.contains(&u32::MAX), "the list is full");
        shortest
    }

    /// The same against CRC32C of the first page's bytes.
    fn against_table_loop(self) -> [Duration; 2] {
        let file = self.files[0];
        self.against(|| {
            black_box(crc32c(black_box(file)));
        })
    }

    /// The same against a second.
    fn against_a_second(self) -> [Duration; 2] {
        let [shortest, _] = self.against(|| ());
        [shortest, Duration::from_secs(1)]
    }
}

fn time(task: impl FnOnce()) -> Duration {
    let start = Instant::now();
    task();
    start.elapsed()
}

/// One cell of each tile, or of each hundredth.
fn measure_few(name: &str, page: &Page) -> f64 {
    let first = bytes_of(page);
    let mut other = page.clone();
    let mut number = 0;
    for (at, record) in other.records.iter_mut().enumerate() {
        if let Body::Tile(tile) = &mut record.body {
            if page.tile_count() < 100 || at % 100 == 0 {
                tile.contents[0][8] ^= 1;
                number += 1;
            }
        }
    }
    let second = bytes_of(&other);
    let pair = Pair::new([&first, &second], NO_COMPRESSOR, number, number as usize);
    line(&format!("{name}, few differing"), number, pair.against_table_loop(), &at_most(FEW))
}

fn measure_all(name: &str, page: &Page) -> f64 {
    let (first, second) = (bytes_of(page), changed(page, |content| content.fill(0x5b)));
    let number = u64::from(page.grid_rows) * u64::from(page.grid_columns);
    let pair = Pair::new([&first, &second], NO_COMPRESSOR, number, number as usize);
    line(&format!("{name}, all listed"), number, pair.against_table_loop(), &at_most(ALL))
}

/// The library must give the number that both files' cells have.
fn measure_packed(first: &PackedPage, second: &PackedPage) -> f64 {
    let number = first.bits.len();
    let mut cells = vec![0; number];
    let pair = Pair::new([&first.file, &second.file], INDEX, number as u64, number);
    let times = pair.against(|| {
        unpack_by_library(first, &mut cells);
        unpack_by_library(second, &mut cells);
    });
    line(&first.name, number as u64, times, &at_most(PACKED))
}

/// A page of scores with these tiles stored.
fn sparse(fill: u32, tiles: &[(u32, u8)]) -> Vec<u8> {
    let mut page = Page::of_sides([65_536, 65_536], [256, 256]);
    page.elements = vec![Element::new(SHORT, b"score")];
    page.elements[0].set_range_and_fill(0, 1000, fill);
    let length = page.uncompressed_size(0);
    for (index, byte) in tiles {
        let tile = Tile { index: *index, contents: vec![vec![*byte; length]] };
        page.records.push(Record::new(Body::Tile(tile)));
    }
    bytes_of(&page)
}

/// Two tiles each: one in both, all cells differing, and one in one of them alone.
fn measure_few_tiles() -> f64 {
    let (first, second) = (sparse(1, &[(7, 1), (400, 1)]), sparse(1, &[(7, 2), (65_535, 2)]));
    let number = 3 * 65_536;
    let pair = Pair::new([&first, &second], NO_COMPRESSOR, number, number as usize);
    line("two tiles each", number, pair.against_a_second(), &at_most(LARGE))
}

fn measure_other_fills() -> f64 {
    let (first, second) = (sparse(1, &[(7, 1), (400, 1)]), sparse(2, &[(7, 1), (400, 1)]));
    let number = (1 << 32) - 2 * 65_536;
    let pair = Pair::new([&first, &second], NO_COMPRESSOR, number, MILLION);
    let name = "two tiles each, other fills, a million listed";
    line(name, number, pair.against_a_second(), &at_most(LARGE))
}

/// What no shape of the code avoids is that each cell is unpacked and looked at. No bound.
fn measure_equal_tiles() {
    let file = tiles_of_one_symbol();
    let name = format!("64 packed tiles of equal cells, {} bytes", file.len());
    line(&name, 0, Pair::new([&file, &file], INDEX, 0, 0).against_a_second(), "none");
}
