//! Req 13's sample sums.

use gvrs_tests::build::build;
use gvrs_tests::page::{Body, Page};
use gvrs_tests::prng::Prng;
use gvrs_tests::second::sheets::UNREAD;

use super::ask::MoveIn;
use super::pages::{front, of_sides};
use crate::face::sample_sums::page;
use crate::reads::ask::Asked;
use crate::run::Run;

const SORT: &str = "sample sums of sheets";

/// 2 by 3: 900, -1, 1000 and -1, -1, 0.
const SHEET: [u8; 21] = [
    0x00, 0x00, 0x00, 0x11, 0x01, 0x00, 0x02, 0x00, 0x03, 0x03, 0x84, 0xff, 0xff, 0x03, 0xe8, 0xff,
    0xff, 0xff, 0xff, 0x00, 0x00,
];

/// A compressor index.
const INDEX: u8 = 7;

const THERE_AND_BACK: &str = "sample: 21 bytes, tiles 2 by 2, there and back";
const TILE_1: &str = "sample: tile 1 is 1000, -1, 0, -1";
const LONGER_FRONT: &str = "sample: a longer front, no sheet and time 0: 3";
const TIME_0: &str = "sample: time 0: 12";
const COMPRESSED_FIRST: &str = "sample: (0, 1) compressed comes before (1, 0), which is 1001: 11";
const WRONG_FIRST: &str = "sample: 1001 comes before a compressed tile: 12";

pub fn section(run: &mut Run, random: &mut Prng) {
    let wanted = [THERE_AND_BACK, TILE_1, LONGER_FRONT, TIME_0, COMPRESSED_FIRST, WRONG_FIRST];
    for thing in wanted {
        run.sheets.want(thing);
    }
    there_and_back(run, random);
    two_faults(run);
}

fn there_and_back(run: &mut Run, random: &mut Prng) {
    let page = of_sides([2, 3], [2, 2], random);
    let given = MoveIn { front: front(&page, random), time: 9, sheet: SHEET.to_vec() };
    let Some(Ok(file)) = run.sheet_in(SORT, &given) else {
        return run.fault("the sample sheet is not moved in", &given.front);
    };
    let asked = Asked::new(&file);
    if run.sheet_out_is(SORT, &asked, 0, &Ok(SHEET.to_vec())) {
        run.sheets.reached(THERE_AND_BACK);
    }
    let tile = asked.cells_with(1, 0, 0);
    let scores: Vec<i16> = tile.bits().iter().map(|bits| *bits as u16 as i16).collect();
    if scores == [1000, UNREAD, 0, UNREAD] {
        run.sheets.reached(TILE_1);
    }
    let late = MoveIn { time: 0, ..given.clone() };
    if run.sheet_in_refused(SORT, &late, 12) {
        run.sheets.reached(TIME_0);
    }
    let mut longer = MoveIn { time: 0, sheet: Vec::new(), ..given };
    longer.front.push(0);
    if run.sheet_in_refused(SORT, &longer, 3) {
        run.sheets.reached(LONGER_FRONT);
    }
}

/// Tiles 2 by 1 and a grid of 2 by 2, then tiles 1 by 1 and a grid of 1 by 2: tile 1 is compressed.
fn two_faults(run: &mut Run) {
    let first = with_compressed(page([2, 2], [2, 1], &[(0, &[1, 1001]), (1, &[0, 0])]));
    let built = build(&first);
    let place = built.starts[1] as u64;
    let asked = Asked::new(&built.bytes);
    for (compressor, number) in [(INDEX + 1, 11), (INDEX, 14)] {
        if run.sheet_out_is(SORT, &asked, u32::from(compressor), &Err((number, place))) {
            run.sheets.reached(COMPRESSED_FIRST);
        }
    }
    let second = with_compressed(page([1, 2], [1, 1], &[(0, &[1001]), (1, &[0])]));
    let built = build(&second);
    let asked = Asked::new(&built.bytes);
    if run.sheet_out_is(SORT, &asked, u32::from(INDEX), &Err((12, 0))) {
        run.sheets.reached(WRONG_FIRST);
    }
}

/// With a fill of -1, and tile 1 in a byte that is no whole content.
fn with_compressed(mut page: Page) -> Page {
    page.elements[0].set_range_and_fill(0, 1000, UNREAD as u16 as u32);
    for record in &mut page.records {
        if let Body::Tile(tile) = &mut record.body {
            if tile.index == 1 {
                tile.contents[0] = vec![INDEX];
            }
        }
    }
    page
}
