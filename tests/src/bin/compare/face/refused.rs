//! Files that the check refuses: its refusal comes before everything else. And files changed at
//! random.

use gvrs_tests::build::build;
use gvrs_tests::page::Page;
use gvrs_tests::prng::Prng;
use gvrs_tests::random_page::random_page;
use gvrs_tests::second::check::Answer;
use gvrs_tests::second::rectangles::{Area, Rectangle};

use super::made::inside;
use crate::aims;
use crate::damage::each_damaged;
use crate::reads::ask::Asked;
use crate::reads::bytes_changed::changed_files;
use crate::reads::described::Described;
use crate::run::Run;

const SORT: &str = "rectangles, pages and elements of refused pages";

const OUTSIDE_TOO: &str = "the check's refusal, though the rectangle is outside too";
const NO_ROOM: &str = "the check's refusal, though there is no room either";
const FACTS: &str = "a refused page and its elements: the place, and zeros";

pub fn section(run: &mut Run, random: &mut Prng) {
    for thing in [OUTSIDE_TOO, NO_ROOM, FACTS] {
        run.face.want(thing);
    }
    for aim in aims::all() {
        if !(run.small && aim.has_long_files()) {
            let times = run.times(4.min(aim.times));
            each_damaged(&aim, times, random, |page, file, refusal, random| {
                refused(run, page, file, refusal, random);
            });
        }
    }
    for _ in 0..run.times(2000) {
        changed(run, &random_page(random), random);
    }
}

/// A rectangle of the page as it was before the damage, others that are outside, and with too
/// little room.
fn refused(run: &mut Run, page: &Page, file: &[u8], refusal: Answer, random: &mut Prng) {
    let asked = Asked::new(file);
    let built = build(page);
    let good = inside(&Described::new(page, &built), 30, random);
    let compressor = u32::from(random.byte());
    let expected = Area::Refused(refusal);
    run.area_is(SORT, &asked, good, compressor, &expected);
    let outside = [
        Rectangle { row: u64::MAX, rows: 2, ..good },
        Rectangle { element: 1 << 63, ..good },
        Rectangle { rows: 0, column: u64::MAX, ..good },
    ];
    for rectangle in outside {
        if run.area_is(SORT, &asked, rectangle, compressor, &expected) {
            run.face.reached(OUTSIDE_TOO);
        }
    }
    for rooms in [[0, 0], [good.cells() as usize - 1, 60]] {
        if run.area_in(SORT, &asked, good, compressor, rooms).as_ref() == Some(&expected) {
            run.face.reached(NO_ROOM);
        }
    }
    let (number, place) = refusal;
    let mut all = run.page(SORT, &asked) == Some((number, first_of(place)));
    all &= run.page_said(SORT, &asked) == Some((number, first_of(place)));
    for element in [good.element, u64::MAX] {
        all &= run.element(SORT, &asked, element) == Some((number, first_of(place)));
        all &= run.element_said(SORT, &asked, element) == Some((number, first_of(place)));
    }
    if all {
        run.face.reached(FACTS);
    } else {
        run.fault(&format!("{FACTS}: not {refusal:?}"), file);
    }
}

/// The place, and behind it zeros.
fn first_of<const COUNT: usize>(place: u64) -> [u64; COUNT] {
    std::array::from_fn(|at| if at == 0 { place } else { 0 })
}

/// Whatever both answer.
fn changed(run: &mut Run, page: &Page, random: &mut Prng) {
    let built = build(page);
    let described = Described::new(page, &built);
    let good = inside(&described, 60, random);
    let tile = described.index(described.at_random(random).tile) as u32;
    for (sort, file) in changed_files(&built, tile, random) {
        let asked = Asked::new(&file);
        run.area(sort, &asked, good, u32::from(random.byte()));
        run.page(sort, &asked);
        run.page_said(sort, &asked);
        run.element(sort, &asked, good.element);
        run.element_said(sort, &asked, good.element);
    }
}
