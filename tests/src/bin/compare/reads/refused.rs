//! Reads of files that the check refuses: its refusal comes before everything else. Without stage 9
//! a file that only stage 9 refuses is read all the same.

use gvrs_tests::build::build;
use gvrs_tests::library::WALK_WITHOUT_STAGE_9;
use gvrs_tests::page::Page;
use gvrs_tests::prng::Prng;
use gvrs_tests::second::cells::{Cell, Content, Spot};
use gvrs_tests::second::check::Answer;

use super::ask::{routes, Asked};
use super::described::Described;
use crate::aims;
use crate::damage::{each_damaged, Aim};
use crate::run::Run;

const SORT: &str = "refused pages";

const OUTSIDE_TOO: &str = "the check's refusal, though the cell is outside too";
const WITHOUT_9: [&str; 4] = [
    "directory at fault, without stage 9: stored",
    "directory at fault, without stage 9: fill",
    "directory at fault, without stage 9: 11",
    "directory at fault, without stage 9: 10",
];

pub fn section(run: &mut Run, random: &mut Prng) {
    run.reads.want(OUTSIDE_TOO);
    for thing in WITHOUT_9 {
        run.reads.want(thing);
    }
    for aim in aims::all() {
        if aim.stage == 9 {
            run.reads.want(&without_9(aim.sentence));
        }
        if !(run.small && aim.has_long_files()) {
            let times = if aim.stage == 9 { 40 } else { 8 };
            let times = run.times(times.min(aim.times));
            each_damaged(&aim, times, random, |page, file, refusal, random| {
                reads(run, &aim, page, file, refusal, random);
            });
        }
    }
}

fn without_9(sentence: &str) -> String {
    format!("without stage 9: {sentence}")
}

/// Cells of the page as it was before the damage, and some outside.
fn reads(run: &mut Run, aim: &Aim, page: &Page, file: &[u8], refusal: Answer, random: &mut Prng) {
    let asked = Asked::new(file);
    let built = build(page);
    let described = Described::new(page, &built);
    let inside = described.at_random(random);
    let near = described.spot(inside).expect("in the grid");
    let other = described.spot(described.at_random(random)).expect("in the grid");
    let far = Spot { row: u64::MAX, ..near };
    for spot in [near, other, far] {
        for route in routes(random) {
            if refusal.0 == 9 && route == WALK_WITHOUT_STAGE_9 {
                read_without_9(run, aim, &asked, spot);
            } else if run.cell_is(SORT, &asked, spot, route, Cell::Refused(refusal)) && spot == far
            {
                run.reads.reached(OUTSIDE_TOO);
            }
        }
    }
    let tile = described.index(inside.tile) as u64;
    for (tile, element) in [(tile, inside.element as u64), (u64::MAX, 0), (0, 1 << 63)] {
        run.content_is(SORT, &asked, (tile, element), Content::Refused(refusal));
    }
}

/// The cell from the records alone.
fn read_without_9(run: &mut Run, aim: &Aim, asked: &Asked, spot: Spot) {
    let Some(cell) = run.cell(SORT, asked, spot, WALK_WITHOUT_STAGE_9) else {
        return;
    };
    let thing = match cell {
        Cell::Stored { .. } => WITHOUT_9[0],
        Cell::Fill { .. } => WITHOUT_9[1],
        Cell::Refused((11, _)) => WITHOUT_9[2],
        Cell::Refused((10, 0)) => WITHOUT_9[3],
        Cell::Refused(_) | Cell::Unpacked { .. } => {
            run.fault("without stage 9 a directory is judged", asked.file);
            return;
        }
    };
    run.reads.reached(thing);
    if thing != WITHOUT_9[3] {
        run.reads.reached(&without_9(aim.sentence));
    }
}
