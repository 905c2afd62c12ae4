//! 10 and 12: rectangles that are empty, that pass the grid, also where sums pass 2^64; elements that
//! the page lacks, and elements that are no Shorts. 10 comes before 12, and both before 11 and 14.

use gvrs_tests::page::{FLOAT, INTEGER, INTEGER_CODED};
use gvrs_tests::prng::Prng;
use gvrs_tests::second::deeds::Deed;
use gvrs_tests::second::rectangles::Rectangle;

use super::scored::Scored;
use crate::face::outside::{in_each_direction, DIRECTIONS, EMPTY, PAST};
use crate::reads::ask::Asked;
use crate::reads::numbers::{outside, OUTSIDE};
use crate::run::Run;

const EMPTY_SORT: &str = "deeds of empty rectangles";
const PAST_SORT: &str = "deeds of rectangles past the grid";
const ELEMENT_SORT: &str = "deeds of elements that are not there";
const TYPE_SORT: &str = "deeds of elements that are no Shorts";

const TYPES: [(u8, &str); 3] =
    [(INTEGER, "12: Integer"), (INTEGER_CODED, "12: integer-coded"), (FLOAT, "12: Float")];
const EMPTY_OTHER: &str = "12: empty, and no Short";
const PAST_OTHER: &str = "10: past the grid, and no Short";
const EMPTY_AND_PAST: &str = "10: empty in one direction, past the grid in the other";
const EMPTY_LACKING: &str = "10: empty, of an element that is not there";
const PAST_LACKING: &str = "10: past the grid, of an element that is not there";
const BEFORE_11_AND_14: &str = "10 or 12, where cells are refused too";

pub fn section(run: &mut Run, random: &mut Prng) {
    for direction in DIRECTIONS {
        for (name, _) in EMPTY {
            run.deeds.want(&format!("12: {direction}: {name}"));
        }
        for (name, _) in PAST {
            run.deeds.want(&format!("10: {direction}: {name}"));
        }
    }
    for name in OUTSIDE {
        run.deeds.want(&format!("10: element: {name}"));
    }
    let others = [EMPTY_OTHER, PAST_OTHER, EMPTY_AND_PAST, EMPTY_LACKING, PAST_LACKING];
    for thing in others.iter().chain(&[BEFORE_11_AND_14]).chain(&TYPES.map(|(_, name)| name)) {
        run.deeds.want(thing);
    }
    for _ in 0..run.times(150) {
        of_page(run, &Scored::at_random(random), random);
    }
}

fn of_page(run: &mut Run, scored: &Scored, random: &mut Prng) {
    let asked = Asked::new(&scored.built.bytes);
    let short = scored.rectangle(60, random);
    let grid = [scored.page.grid_rows, scored.page.grid_columns].map(u64::from);
    let refused_too = !scored.account(short).refused.is_empty();
    let question =
        Question { asked: &asked, short, grid, compressor: scored.compressor, refused_too };
    empty(run, &question, EMPTY_SORT, None);
    past(run, &question, None);
    lacking(run, &question, scored.page.elements.len() as u64);
    if let Some(other) = random.pick_any(&scored.of_type(false)) {
        let (element, type_code) = (other as u64, scored.page.elements[other].type_code);
        let other = Question { short: Rectangle { element, ..short }, ..question };
        let named = TYPES.iter().find(|(code, _)| *code == type_code).expect("no Short");
        other.is(run, TYPE_SORT, other.short, 12, named.1);
        empty(run, &other, TYPE_SORT, Some(EMPTY_OTHER));
        past(run, &other, Some(PAST_OTHER));
    }
}

/// A page, and a rectangle of it that is inside.
struct Question<'a> {
    asked: &'a Asked<'a>,
    short: Rectangle,
    grid: [u64; 2],
    compressor: u32,
    /// Some cell of the rectangle is 11 or 14.
    refused_too: bool,
}

impl Question<'_> {
    /// Refused with that number, at place 0.
    fn is(&self, run: &mut Run, sort: &str, rectangle: Rectangle, number: u32, thing: &str) {
        let expected = Deed::Refused((number, 0));
        if run.deed_is(sort, self.asked, rectangle, self.compressor, &expected) {
            run.deeds.reached(thing);
            run.deeds.reached_if(&[(BEFORE_11_AND_14, self.refused_too)]);
        }
    }
}

fn empty(run: &mut Run, question: &Question, sort: &str, thing: Option<&str>) {
    for (name, stretch) in EMPTY {
        let rectangles = in_each_direction(question.grid, question.short, stretch);
        for (direction, rectangle) in DIRECTIONS.iter().zip(rectangles) {
            let by_name = format!("12: {direction}: {name}");
            question.is(run, sort, rectangle, 12, thing.unwrap_or(&by_name));
        }
    }
}

fn past(run: &mut Run, question: &Question, thing: Option<&str>) {
    for (name, stretch) in PAST {
        let rectangles = in_each_direction(question.grid, question.short, stretch);
        for (direction, rectangle) in DIRECTIONS.iter().zip(rectangles) {
            let by_name = format!("10: {direction}: {name}");
            question.is(run, PAST_SORT, rectangle, 10, thing.unwrap_or(&by_name));
        }
        let [rows_past, columns_past, _] = rectangles;
        for rectangle in [
            Rectangle { columns: 0, ..rows_past },
            Rectangle { rows: 0, ..columns_past },
            Rectangle { column: question.grid[1], columns: 0, ..rows_past },
            Rectangle { row: question.grid[0], rows: 0, ..columns_past },
        ] {
            question.is(run, PAST_SORT, rectangle, 10, thing.unwrap_or(EMPTY_AND_PAST));
        }
    }
}

fn lacking(run: &mut Run, question: &Question, elements: u64) {
    let short = question.short;
    for name in OUTSIDE {
        let element = outside(name, elements, short.element);
        let lacking = Rectangle { element, ..short };
        question.is(run, ELEMENT_SORT, lacking, 10, &format!("10: element: {name}"));
        let empty = Rectangle { rows: 0, ..lacking };
        question.is(run, ELEMENT_SORT, empty, 10, EMPTY_LACKING);
        let past = Rectangle { row: u64::MAX, rows: u64::MAX, ..lacking };
        question.is(run, ELEMENT_SORT, past, 10, PAST_LACKING);
    }
}
