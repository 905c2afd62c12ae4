//! Sheets and pages at the ceilings.

use gvrs_tests::build::bytes_of;
use gvrs_tests::prng::Prng;
use gvrs_tests::second::sheets::{Sheet, UNREAD};

use super::ask::MoveIn;
use super::pages::{front, of_sides};
use crate::reads::ask::Asked;
use crate::run::Run;

const SORT: &str = "sheets and pages at the ceilings";

const LONG_THERE: &str = "a sheet of 2,000 by 4,000 there and back";
const CEILING: &str = "4: a sheet whose page would pass 16,777,216 bytes";
const NONE_STORED: &str = "a sheet of as many scores, all -1, is moved in";
const LONG_SIDE: &str = "a side of 65,535, there and back";
const SIDE: &str = "12: a side of 65,536";
const LENGTH: &str = "12: a grid of 65,535 by 65,535";
const LONGEST: &str = "13, not 12: a grid of 65,535 by 32,768";

pub fn section(run: &mut Run, random: &mut Prng) {
    for thing in [LONG_THERE, CEILING, NONE_STORED, LONG_SIDE, SIDE, LENGTH, LONGEST] {
        run.sheets.want(thing);
    }
    long_sheets(run, random);
    sides(run, random);
}

fn of_one_score(rows: u16, columns: u16, score: i16) -> Sheet {
    Sheet { rows, columns, scores: vec![score; usize::from(rows) * usize::from(columns)] }
}

fn long_sheets(run: &mut Run, random: &mut Prng) {
    for (rows, columns, tile, score, thing) in [
        (2000, 4000, [500, 250], 950, LONG_THERE),
        (2100, 4000, [500, 250], 0, CEILING),
        (2100, 4000, [500, 250], UNREAD, NONE_STORED),
        (65_535, 2, [4096, 2], 1000, LONG_SIDE),
    ] {
        let page = of_sides([u32::from(rows), u32::from(columns)], tile, random);
        let sheet = of_one_score(rows, columns, score).bytes();
        let given = MoveIn { front: front(&page, random), time: 1, sheet };
        match run.sheet_in(SORT, &given) {
            Some(Err((4, 0))) if thing == CEILING => run.sheets.reached(thing),
            Some(Ok(file)) if thing != CEILING => {
                let asked = Asked::new(&file);
                let answer = run.sheet_out_with(SORT, &asked, 0, given.sheet.len(), &[0]);
                if answer.is_some_and(|answer| answer == Ok(given.sheet)) {
                    run.sheets.reached(thing);
                }
            }
            Some(_) => run.fault(&format!("{SORT}: {thing}"), &given.front),
            None => (),
        }
    }
}

/// Pages without a tile record. The longest sheet is not written: its buffer is too short.
fn sides(run: &mut Run, random: &mut Prng) {
    for (grid, number, thing) in [
        ([65_536, 1], 12, SIDE),
        ([1, 65_536], 12, SIDE),
        ([65_535, 65_535], 12, LENGTH),
        ([65_535, 32_768], 13, LONGEST),
    ] {
        let file = bytes_of(&of_sides(grid, [512, 512], random));
        let asked = Asked::new(&file);
        // The second implementation goes over every cell, so it is not asked for the longest.
        let mut out = [u64::MAX];
        let answered =
            gvrs_tests::library::sheet_out_into(&file, 0, &mut [], &mut [0; 8], &mut out);
        let known = number == 13 || asked.checked.sheet_out(0, 8) == Err((number, 0));
        if (answered, out) == (number, [0]) && known {
            run.sheets.reached(thing);
        } else {
            run.fault(&format!("{SORT}: {thing}: {answered}"), asked.file);
        }
    }
}
