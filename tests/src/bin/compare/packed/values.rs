//! Values at both ends, differences that wrap, Shorts out of their range, Floats.

use gvrs_tests::page::{FLOAT, INTEGER, INTEGER_CODED, SHORT};
use gvrs_tests::prng::Prng;
use gvrs_tests::second::predict::PREDICTORS;

use super::contents::{good, of_cells, Form};
use super::holder::{whole, Expected, Holder};
use crate::run::Run;

const SORT: &str = "packed values";

const ENDS: &str = "values at both ends, differences that wrap";
const SHORT_ENDS: &str = "Shorts at both ends of their range";
const FLOAT_IS_11: &str = "a Float with the index is 11";
const FLOAT_MALFORMED: &str = "a Float with the index is 11, malformed too";
const PLACES: [&str; 4] = ["first", "last", "padding", "another"];
const OUTSIDE: [i32; 8] = [65_541, 32_768, -32_769, 65_535, 65_536, -65_536, i32::MIN, i32::MAX];

pub fn section(run: &mut Run, random: &mut Prng) {
    for thing in [ENDS, SHORT_ENDS, FLOAT_IS_11, FLOAT_MALFORMED] {
        run.packed.want(thing);
    }
    for _ in 0..run.times(100) {
        for type_code in [INTEGER, INTEGER_CODED] {
            let ends = [i32::MIN, i32::MAX, i32::MIN + 1, 0, -1, 1];
            at_ends(run, type_code, &ends, ENDS, random);
        }
        at_ends(run, SHORT, &[-32_768, 32_767, 0, -1], SHORT_ENDS, random);
    }
    for value in OUTSIDE.into_iter().step_by(if run.small { 3 } else { 1 }) {
        for place in 0..PLACES.len() {
            for _ in 0..run.times(6) {
                outside(run, value, place, random);
            }
        }
    }
    for _ in 0..run.times(200) {
        floats(run, random);
    }
}

/// Rows of constant stretches, each at one end.
fn at_ends(run: &mut Run, type_code: u8, ends: &[i32], thing: &'static str, random: &mut Prng) {
    let tile = [random.between(4, 20) as u32, random.between(8, 20) as u32];
    let mut value = ends[0];
    let cells: Vec<i32> = (0..tile[0] * tile[1])
        .map(|_| {
            if random.one_in(9) {
                value = random.pick(ends);
            }
            value
        })
        .collect();
    for predictor in PREDICTORS {
        let cells = cells.clone();
        let Some(good) = of_cells(type_code, tile, cells, predictor, Form::Huffman, random) else {
            continue;
        };
        let holder = Holder::new(type_code, tile, &good.packed.bytes(), random);
        if whole(run, SORT, thing, &holder, Expected::Cells(&good.cells), random) {
            run.packed.reached(thing);
        }
    }
}

/// One cell that no Short can be, in the first cell of the tile, in the last, past the grid's edge
/// or anywhere. As an Integer it is what it is.
fn outside(run: &mut Run, value: i32, place: usize, random: &mut Prng) {
    let name = PLACES[place];
    let tile = [random.between(6, 12) as u32, random.between(6, 12) as u32];
    let (rows, columns) = (tile[0] as usize, tile[1] as usize);
    let less = [random.below(3) as u32, random.between(1, 3) as u32];
    let at = match place {
        0 => 0,
        1 => rows * columns - 1,
        2 => random.below(rows) * columns + columns - 1,
        _ => random.below(rows * columns),
    };
    let mut cells = vec![5; rows * columns];
    cells[at] = value;
    for predictor in PREDICTORS {
        for (type_code, refused) in [(SHORT, true), (INTEGER, false)] {
            let cells = cells.clone();
            let good = of_cells(type_code, tile, cells, predictor, Form::Huffman, random);
            let Some(good) = good else {
                continue;
            };
            let content = good.packed.bytes();
            let holder = match place {
                2 => Holder::over_the_edge(type_code, tile, less, &content, random),
                _ => Holder::new(type_code, tile, &content, random),
            };
            let thing = if refused {
                format!("a Short of {value} is 14: {name} cell")
            } else {
                format!("an Integer that no Short can be: {name} cell")
            };
            run.packed.want(&thing);
            let unpacked = Expected::Cells(&good.cells);
            let expected = if refused { Expected::Refused(14) } else { unpacked };
            if whole(run, SORT, &thing, &holder, expected, random) {
                run.packed.reached(&thing);
            }
        }
    }
}

/// Req 01: "a Float element, is still 11", even where the content is malformed (reading 13).
fn floats(run: &mut Run, random: &mut Prng) {
    let good = good(random);
    let mut content = good.packed.bytes();
    let malformed = random.one_in(2);
    if malformed {
        content.truncate(random.between(1, content.len() - 1));
    }
    let holder = Holder::new(FLOAT, good.tile, &content, random);
    let thing = if malformed { FLOAT_MALFORMED } else { FLOAT_IS_11 };
    if whole(run, SORT, thing, &holder, Expected::Refused(11), random) {
        run.packed.reached(thing);
    }
}
