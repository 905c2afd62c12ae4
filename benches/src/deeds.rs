//! The deed of one cell of pages with as many metadata records as fit, against the check of the same
//! file: the search for the records that say the rule is one pass over all records.

use std::hint::black_box;
use std::time::{Duration, Instant};

use gvrs_tests::build::bytes_of;
use gvrs_tests::keys::{alike, page_of, Key};
use gvrs_tests::library;
use gvrs_tests::page::{Element, SHORT};
use gvrs_tests::second::cells::{Opened, NO_COMPRESSOR};
use gvrs_tests::second::deeds::SCORE_RULE;
use gvrs_tests::second::rectangles::Rectangle;

use crate::milliseconds;
use crate::shapes::{self, CEILING};

/// A deed takes at most so many times as long as the check.
const BOUND: f64 = 1.2;

const ROUNDS: usize = 12;

const CELL: Rectangle = Rectangle { element: 0, row: 0, column: 0, rows: 1, columns: 1 };

/// Prints a line for each file. True if no ratio is above the bound.
pub fn measure() -> bool {
    println!(
        "{:44} {:>8} {:>11} {:>11} {:>6} {:>7}",
        "deed of a cell, metadata records", "records", "library", "gvrs_check", "ratio", "at most"
    );
    let count = shapes::metadata_records(CEILING);
    let of_one_name: Vec<Key> = (0..count).map(|id| (b"m".to_vec(), id as u32)).collect();
    // Names as long as the rule's take more bytes, so that fewer fit.
    let nearly: Vec<Key> = (0..count * 2 / 3).map(|number| (alike(10, number), 2)).collect();
    let mut rule_last = nearly.clone();
    rule_last.push((SCORE_RULE.to_vec(), 2));
    let mut within = true;
    for (name, keys) in [
        ("one name", of_one_name),
        ("names as long as the rule's", nearly),
        ("the same, the rule's record last", rule_last),
    ] {
        within &= measure_keys(name, &keys) <= BOUND;
    }
    if !within {
        println!("FAULT: a deed takes more than {BOUND} times as long as the check");
    }
    within
}

/// Prints one line; the ratio. The library must give the second implementation's deed.
fn measure_keys(name: &str, keys: &[Key]) -> f64 {
    let mut page = page_of(keys, &(0..keys.len()).collect::<Vec<usize>>());
    page.elements = vec![Element::new(SHORT, b"score")];
    let file = bytes_of(&page);
    assert!(file.len() <= CEILING, "{name}: too long");
    let expected = Opened::checked(&file).deed(CELL, NO_COMPRESSOR).as_numbers();
    assert!(judged(&file) == expected, "{name}: another deed");
    let [mut of_deed, mut of_check] = [Duration::MAX; 2];
    // In turn, so that other work on the machine falls on both.
    for _ in 0..ROUNDS {
        of_deed = of_deed.min(time(|| {
            black_box(judged(black_box(&file)));
        }));
        of_check = of_check.min(time(|| {
            black_box(library::check(black_box(&file)));
        }));
    }
    line(name, keys.len(), of_deed, of_check)
}

fn time(task: impl FnOnce()) -> Duration {
    let start = Instant::now();
    task();
    start.elapsed()
}

fn judged(file: &[u8]) -> (u32, [u64; 4]) {
    let mut out = [0; 4];
    (library::deed_into(file, CELL, NO_COMPRESSOR, &mut [], &mut out), out)
}

fn line(name: &str, records: usize, of_deed: Duration, of_check: Duration) -> f64 {
    let ratio = of_deed.as_secs_f64() / of_check.as_secs_f64();
    let [deed, check] = [of_deed, of_check].map(milliseconds);
    println!("{name:44} {records:>8} {deed:>8.2} ms {check:>8.2} ms {ratio:>6.2} {BOUND:>7.2}");
    ratio
}
