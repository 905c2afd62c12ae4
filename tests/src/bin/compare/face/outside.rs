//! Rectangles that are empty, that pass the grid, also where sums pass 2^64, and of elements that
//! the page lacks: 10 comes before 13, and an empty rectangle is held to it too.

use gvrs_tests::prng::Prng;
use gvrs_tests::second::rectangles::{Area, Rectangle};

use super::made::inside;
use super::mixed::Mixed;
use crate::reads::ask::Asked;
use crate::reads::numbers::{outside, OUTSIDE};
use crate::run::Run;

const EMPTY_SORT: &str = "empty rectangles";
const PAST_SORT: &str = "rectangles past the grid";
const ELEMENT_SORT: &str = "rectangles of elements that are not there";

/// A start and a length, made of the grid's side and of a start and a length that are inside.
pub type Stretch = fn(u64, u64, u64) -> (u64, u64);

/// Nothing, and not past the grid.
pub const EMPTY: [(&str, Stretch); 3] = [
    ("empty, inside", |_, start, _| (start, 0)),
    ("empty, at the first", |_, _, _| (0, 0)),
    ("empty, at the end", |side, _, _| (side, 0)),
];

pub const PAST: [(&str, Stretch); 20] = [
    ("one too many", |side, start, _| (start, side - start + 1)),
    ("one too many, from the first", |side, _, _| (0, side + 1)),
    ("from the end", |side, _, _| (side, 1)),
    ("from behind the end", |side, _, length| (side + 1, length)),
    ("empty, behind the end", |side, _, _| (side + 1, 0)),
    ("empty, at 2^32", |_, _, _| (1 << 32, 0)),
    ("empty, at 2^64 - 1", |_, _, _| (u64::MAX, 0)),
    ("2^64 - 1 and 1", |_, _, _| (u64::MAX, 1)),
    ("2^64 - 1 and 2", |_, _, _| (u64::MAX, 2)),
    ("2^64 - 1 twice", |_, _, _| (u64::MAX, u64::MAX)),
    ("2^63 twice", |_, _, _| (1 << 63, 1 << 63)),
    ("from 2^64 less its length", |_, _, length| (length.wrapping_neg(), length)),
    ("a sum of 2^64 and the side", |side, _, length| (length.wrapping_neg(), length + side)),
    ("a length of 2^64 less the start", |_, start, _| (start.max(1), start.max(1).wrapping_neg())),
    ("a length of 2^64 - 1", |_, start, _| (start, u64::MAX)),
    ("from 2^32 and the start", |_, start, length| ((1 << 32) + start, length)),
    ("a length of 2^32 more", |_, start, length| (start, (1 << 32) + length)),
    ("a length of 2^32 less the start", |_, start, _| (start, (1 << 32) - start)),
    ("from 2^31 and the start", |_, start, length| ((1 << 31) + start, length)),
    ("a length of 2^31 more", |_, start, length| (start, (1 << 31) + length)),
];

pub const DIRECTIONS: [&str; 3] = ["rows", "columns", "rows and columns"];
const EMPTY_AND_PAST: &str = "empty in one direction, past the grid in the other";
const EMPTY_LACKING: &str = "empty, of an element that is not there";
const BEFORE_13: &str = "10, though there is no room either";

pub fn section(run: &mut Run, random: &mut Prng) {
    for direction in DIRECTIONS {
        for (name, _) in EMPTY.iter().chain(&PAST) {
            run.face.want(&format!("{direction}: {name}"));
        }
    }
    for name in OUTSIDE {
        run.face.want(&format!("element of a rectangle: {name}"));
    }
    for thing in [EMPTY_AND_PAST, EMPTY_LACKING, BEFORE_13] {
        run.face.want(thing);
    }
    for _ in 0..run.times(100) {
        let mixed = Mixed::at_random(random);
        let good = inside(&mixed.described(), 60, random);
        let asked = Asked::new(&mixed.built.bytes);
        let grid = [mixed.page.grid_rows, mixed.page.grid_columns].map(u64::from);
        let question = Question { asked: &asked, good, grid, compressor: mixed.compressor };
        empty(run, &question);
        past(run, &question);
        lacking(run, &question, mixed.page.elements.len() as u64);
    }
}

/// A page, and a rectangle of it that is inside.
struct Question<'a> {
    asked: &'a Asked<'a>,
    good: Rectangle,
    grid: [u64; 2],
    compressor: u32,
}

impl Question<'_> {
    fn in_each_direction(&self, stretch: Stretch) -> [Rectangle; 3] {
        in_each_direction(self.grid, self.good, stretch)
    }

    fn is(&self, run: &mut Run, sort: &str, rectangle: Rectangle, expected: &Area) -> bool {
        run.area_is(sort, self.asked, rectangle, self.compressor, expected)
    }

    /// 10 at place 0, with room for 60 cells and for none.
    fn is_10(&self, run: &mut Run, sort: &str, rectangle: Rectangle, thing: &str) {
        let expected = Area::Refused((10, 0));
        let mut refused = self.is(run, sort, rectangle, &expected);
        let answer = run.area_in(sort, self.asked, rectangle, self.compressor, [60, 0]);
        refused &= answer == Some(expected);
        if refused {
            run.face.reached(thing);
            run.face.reached(BEFORE_13);
        } else {
            run.fault(&format!("{thing}: {rectangle:?}"), self.asked.file);
        }
    }
}

/// A rectangle with these rows, with these columns, and with both.
pub fn in_each_direction(grid: [u64; 2], good: Rectangle, stretch: Stretch) -> [Rectangle; 3] {
    let (row, rows) = stretch(grid[0], good.row, good.rows);
    let (column, columns) = stretch(grid[1], good.column, good.columns);
    [
        Rectangle { row, rows, ..good },
        Rectangle { column, columns, ..good },
        Rectangle { row, rows, column, columns, ..good },
    ]
}

fn empty(run: &mut Run, question: &Question) {
    let nothing = Area::Read { kinds: Vec::new(), bits: Vec::new() };
    for (name, stretch) in EMPTY {
        for (direction, rectangle) in DIRECTIONS.iter().zip(question.in_each_direction(stretch)) {
            if question.is(run, EMPTY_SORT, rectangle, &nothing) {
                run.face.reached(&format!("{direction}: {name}"));
            }
        }
    }
}

fn past(run: &mut Run, question: &Question) {
    for (name, stretch) in PAST {
        let rectangles = question.in_each_direction(stretch);
        for (direction, rectangle) in DIRECTIONS.iter().zip(rectangles) {
            question.is_10(run, PAST_SORT, rectangle, &format!("{direction}: {name}"));
        }
        let [rows_past, columns_past, _] = rectangles;
        for rectangle in [
            Rectangle { columns: 0, ..rows_past },
            Rectangle { rows: 0, ..columns_past },
            Rectangle { column: question.grid[1], columns: 0, ..rows_past },
            Rectangle { row: question.grid[0], rows: 0, ..columns_past },
        ] {
            question.is_10(run, PAST_SORT, rectangle, EMPTY_AND_PAST);
        }
    }
}

fn lacking(run: &mut Run, question: &Question, elements: u64) {
    let good = question.good;
    for name in OUTSIDE {
        let element = outside(name, elements, good.element);
        let thing = format!("element of a rectangle: {name}");
        question.is_10(run, ELEMENT_SORT, Rectangle { element, ..good }, &thing);
        let empty = Rectangle { element, rows: 0, ..good };
        question.is_10(run, ELEMENT_SORT, empty, EMPTY_LACKING);
    }
}
