//! Files that the check refuses: its refusal comes before everything else. And files changed at
//! random.

use gvrs_tests::build::build;
use gvrs_tests::page::{Page, SHORT};
use gvrs_tests::prng::Prng;
use gvrs_tests::second::check::Answer;
use gvrs_tests::second::deeds::Deed;
use gvrs_tests::second::rectangles::Rectangle;

use super::scored::Scored;
use crate::aims;
use crate::damage::each_damaged;
use crate::face::made::inside;
use crate::reads::ask::Asked;
use crate::reads::bytes_changed::changed_files;
use crate::reads::described::Described;
use crate::run::Run;

const SORT: &str = "deeds of refused pages";

const GOOD: &str = "the check's refusal, of a rectangle of Shorts inside the grid";
const OUTSIDE_TOO: &str = "the check's refusal, though it would be 10";
const INPUT_TOO: &str = "the check's refusal, though it would be 12";

pub fn section(run: &mut Run, random: &mut Prng) {
    for thing in [GOOD, OUTSIDE_TOO, INPUT_TOO] {
        run.deeds.want(thing);
    }
    for aim in aims::all() {
        if !(run.small && aim.has_long_files()) {
            let times = if aim.has_long_files() { 1 } else { run.times(3) };
            each_damaged(&aim, times, random, |page, file, refusal, random| {
                refused(run, page, file, refusal, random);
            });
        }
    }
    for _ in 0..run.times(1000) {
        changed(run, &Scored::at_random(random), random);
    }
}

/// A rectangle of the page as it was before the damage, others that are outside or empty, and of
/// each other type.
fn refused(run: &mut Run, page: &Page, file: &[u8], refusal: Answer, random: &mut Prng) {
    let asked = Asked::new(file);
    let built = build(page);
    let good = inside(&Described::new(page, &built), 30, random);
    let compressor = u32::from(random.byte());
    let mut is = |rectangle, thing: &str| {
        if run.deed_is(SORT, &asked, rectangle, compressor, &Deed::Refused(refusal)) {
            run.deeds.reached(thing);
        }
    };
    for (element, described) in (0..).zip(&page.elements).take(4) {
        let short = described.type_code == SHORT;
        is(Rectangle { element, ..good }, if short { GOOD } else { INPUT_TOO });
    }
    is(Rectangle { row: u64::MAX, rows: 2, ..good }, OUTSIDE_TOO);
    is(Rectangle { element: 1 << 63, ..good }, OUTSIDE_TOO);
    is(Rectangle { rows: 0, column: u64::MAX, ..good }, OUTSIDE_TOO);
    is(Rectangle { rows: 0, ..good }, INPUT_TOO);
}

/// Whatever both answer.
fn changed(run: &mut Run, scored: &Scored, random: &mut Prng) {
    let good = scored.rectangle(60, random);
    let tile = random.below(scored.page.tile_count()) as u32;
    for (sort, file) in changed_files(&scored.built, tile, random) {
        run.deed(sort, &Asked::new(&file), good, scored.compressor);
    }
}
