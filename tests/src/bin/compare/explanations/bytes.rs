//! Every change of a single byte of a page.

use gvrs_tests::build::{build, make_checksums_good};
use gvrs_tests::page::{Body, Page, Record, Tile};

use super::ask::ask;
use super::pages;
use crate::run::Run;

/// Of a short page, and of a page with all that a rule can look at, with and without checksums.
pub fn section(run: &mut Run) {
    let mut rich = pages::rich();
    every_value(run, &build(&short_page()).bytes);
    every_value(run, &build(&rich).bytes);
    rich.checksums = false;
    every_value(run, &build(&rich).bytes);
}

/// Without checksums, so that a change is judged by the rules behind them.
fn short_page() -> Page {
    let mut page = Page::plain();
    page.checksums = false;
    let tile = Tile { index: 0, contents: vec![vec![1; 16]] };
    page.records.insert(0, Record::new(Body::Tile(tile)));
    page
}

/// Each byte with each other value; with checksums as they are and, where there are any, made good.
fn every_value(run: &mut Run, good: &[u8]) {
    let step = if run.small { 600 } else { 1 };
    let changes = (0..good.len()).flat_map(|at| (1..=255).map(move |change: u8| (at, change)));
    for (at, change) in changes.step_by(step) {
        let mut file = good.to_vec();
        file[at] ^= change;
        ask(run, "a byte changed", &file);
        if file[128] == 1 {
            make_checksums_good(&mut file);
            ask(run, "a byte changed, checksums made good", &file);
        }
    }
}
