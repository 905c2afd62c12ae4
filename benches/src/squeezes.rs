//! An open page of nearly 16 MiB squeezed tight, the plan made too, against checks of the file that was
//! opened: 350,000 metadata records, listed in shuffled order, and tiles, small and large. Free space before
//! the first record moves every one of them.

use std::hint::black_box;
use std::time::{Duration, Instant};

use gvrs_tests::build::bytes_of;
use gvrs_tests::library;
use gvrs_tests::page::{Body, Metadata, Page, Record, Tile};
use gvrs_tests::prng::Prng;
use gvrs_tests::second::correct::{correct, Call};

use crate::shapes::{self, CEILING};
use crate::{milliseconds, shortest, ENOUGH, MOST_TIMES};

/// Plan and squeezing together take at most so many checks.
const BOUND: f64 = 3.0;

/// Prints a line for each page. True if no ratio is above the bound.
pub fn measure() -> bool {
    println!(
        "{:46} {:>8} {:>11} {:>11} {:>11} {:>6} {:>7}",
        "a page squeezed tight", "records", "plan", "squeezing", "check", "ratio", "at most"
    );
    let pages = [
        ("metadata records, listed in shuffled order", shuffled_metadata()),
        ("tiles of 56 Integers", tiles([7, 8], [256, 256])),
        ("tiles of 4095 x 64 Integers", tiles([4095, 64], [15, 1])),
    ];
    let mut within = true;
    for (name, page) in &pages {
        within &= measure_page(name, page) <= BOUND;
    }
    if !within {
        println!("FAULT: a page is squeezed in more than {BOUND} checks");
    }
    within
}

/// With a free record first, which a directory at the end lists.
fn file_of(mut page: Page) -> Vec<u8> {
    page.insert(0, Body::Free(16));
    page.records.push(Record::new(Body::FileSpaceDirectory(vec![0])));
    bytes_of(&page)
}

fn shuffled_metadata() -> Vec<u8> {
    let mut page = Page::plain();
    let first = page.records.len();
    for id in 0..shapes::metadata_records(CEILING) {
        page.records.push(Record::new(Body::Metadata(Metadata::new(b"m", id as u32))));
    }
    let mut listed: Vec<usize> = (first..page.records.len()).collect();
    Prng::new(11).shuffle(&mut listed);
    page.records.push(Record::new(Body::MetadataDirectory(listed)));
    file_of(page)
}

fn tiles(tile: [u32; 2], tiles: [u32; 2]) -> Vec<u8> {
    let mut page = Page::of_sides([0, 1].map(|side| tile[side] * tiles[side]), tile);
    let whole = page.uncompressed_size(0);
    for index in 0..tiles[0] * tiles[1] {
        let contents = vec![(0..whole).map(|at| (at as u32 ^ index) as u8).collect()];
        page.records.push(Record::new(Body::Tile(Tile { index, contents })));
    }
    file_of(page)
}

/// Prints one line; the ratio. The library must leave the second implementation's page.
fn measure_page(name: &str, file: &[u8]) -> f64 {
    let of_check = shortest(|| assert_eq!(library::check(black_box(file)), (0, 0)));
    let mut buffer = file.to_vec();
    buffer.resize(CEILING, 0xa7);
    let mut out = [0, 0];
    let open = Call::Open { time: 1 };
    assert_eq!(library::correct_into(&mut buffer, file.len() as u64, &open, &mut out), 0);
    let n = out[0];
    let mut plan = vec![0; CEILING / 16];
    let of_plan = shortest(|| {
        let number = library::tight_plan_into(black_box(&buffer), n, &mut plan, &mut out);
        assert_eq!(number, 0, "{name}: the library makes the plan");
    });
    plan.truncate(out[1] as usize);
    let (of_squeezing, squeezed) = shortest_squeezing(name, &buffer, n, &mut plan);
    let call = Call::Squeeze { plan: plan.clone() };
    let expected = correct(&buffer, n, &call).expect("the second implementation squeezes the page");
    assert!(squeezed == expected, "{name}: another page");
    let ratio = (of_plan + of_squeezing).as_secs_f64() / of_check.as_secs_f64();
    println!(
        "{name:46} {:>8} {:>8.2} ms {:>8.2} ms {:>8.2} ms {ratio:>6.2} {BOUND:>7.2}",
        plan.len(),
        milliseconds(of_plan),
        milliseconds(of_squeezing),
        milliseconds(of_check),
    );
    ratio
}

/// The shortest of some repetitions, each on the page as it was before; and the page behind the last.
fn shortest_squeezing(name: &str, buffer: &[u8], n: u64, plan: &mut [u64]) -> (Duration, Vec<u8>) {
    let begin = Instant::now();
    let mut shortest = Duration::MAX;
    let mut squeezed = buffer.to_vec();
    let mut out = [0];
    for _ in 0..MOST_TIMES {
        squeezed.copy_from_slice(buffer);
        let start = Instant::now();
        let number = library::squeeze_into(black_box(&mut squeezed), n, plan, &mut out);
        shortest = shortest.min(start.elapsed());
        assert_eq!(number, 0, "{name}: the library squeezes the page");
        if begin.elapsed() > ENOUGH {
            break;
        }
    }
    squeezed.truncate(out[0] as usize);
    (shortest, squeezed)
}
