//! Req 07's sample sums, with a stored -1 as Req 13 has it.

use gvrs_tests::build::{build, bytes_of};
use gvrs_tests::page::Body;
use gvrs_tests::second::deeds::{Deed, CERTAIN, DOUBTFUL, UNREAD};

use crate::face::sample_sums::{page, rectangle};
use crate::reads::ask::Asked;
use crate::run::Run;

const SORT: &str = "sample sums of deeds";

/// The pages' fill is none of the sums' business: as a score it would be certain, or doubtful.
const FILLS: [i16; 3] = [950, -1, 0];

/// Row, column, rows and columns; then the grade, the number of fills and the lowest.
type Sample = ([u64; 4], u32, u64, Option<i16>);

/// Grid 3 by 4, tiles 2 by 2.
const FIRST: [Sample; 7] = [
    ([0, 0, 2, 2], CERTAIN, 0, Some(900)),
    ([0, 0, 2, 4], DOUBTFUL, 0, Some(899)),
    ([1, 1, 1, 3], CERTAIN, 0, Some(900)),
    ([0, 0, 3, 2], UNREAD, 2, Some(900)),
    ([2, 0, 1, 2], UNREAD, 2, None),
    ([2, 2, 1, 2], UNREAD, 1, Some(1001)),
    ([0, 0, 3, 4], UNREAD, 3, Some(899)),
];
const REFUSED_10: [[u64; 4]; 5] =
    [[0, 0, 4, 1], [3, 0, 1, 1], [4, 0, 0, 1], [3, 5, 0, 0], [u64::MAX, 0, u64::MAX, 1]];
const REFUSED_12: [[u64; 4]; 3] = [[3, 4, 0, 0], [0, 0, 3, 0], [3, 0, 0, 4]];

/// Of the compressed contents, which are one byte and no whole content.
const INDEX: u8 = 7;

pub fn section(run: &mut Run) {
    for fill in FILLS {
        first(run, fill);
        second(run, fill);
    }
}

fn first(run: &mut Run, fill: i16) {
    let mut page = page(
        [3, 4],
        [2, 2],
        &[(0, &[900, 1000, 950, 901]), (1, &[899, 900, 900, 900]), (3, &[-1, 1001, 0, 0])],
    );
    page.elements[0].set_range_and_fill(0, 1000, fill as u16 as u32);
    let file = bytes_of(&page);
    let asked = Asked::new(&file);
    for (sides, grade, fills, lowest) in FIRST {
        is(run, &asked, sides, Deed::by_first(grade, fills, lowest));
    }
    for sides in REFUSED_10 {
        is(run, &asked, sides, Deed::Refused((10, 0)));
    }
    for sides in REFUSED_12 {
        is(run, &asked, sides, Deed::Refused((12, 0)));
    }
}

/// Grid 2 by 2, tiles 1 by 1; in the file tile 2 comes before tile 1, and that before tile 0. With
/// the index of the two that are compressed it is 14 in place of 11.
fn second(run: &mut Run, fill: i16) {
    let mut page = page([2, 2], [1, 1], &[(2, &[0]), (1, &[0]), (0, &[950])]);
    page.elements[0].set_range_and_fill(0, 1000, fill as u16 as u32);
    for record in &mut page.records {
        if let Body::Tile(tile) = &mut record.body {
            if tile.index > 0 {
                tile.contents[0] = vec![INDEX];
            }
        }
    }
    let built = build(&page);
    let [of_tile_2, of_tile_1] = [built.starts[0], built.starts[1]].map(|start| start as u64);
    let asked = Asked::new(&built.bytes);
    for (compressor, number) in [(INDEX + 1, 11), (INDEX, 14)] {
        let certain = Deed::by_first(CERTAIN, 0, Some(950));
        let unread = Deed::by_first(UNREAD, 1, None);
        let samples = [
            ([0, 0, 2, 2], Deed::Refused((number, of_tile_1))),
            ([0, 0, 2, 1], Deed::Refused((number, of_tile_2))),
            ([0, 0, 1, 1], certain),
            ([1, 1, 1, 1], unread),
        ];
        for (sides, expected) in samples {
            run.deed_is(SORT, &asked, rectangle(sides), u32::from(compressor), &expected);
        }
    }
}

fn is(run: &mut Run, asked: &Asked, sides: [u64; 4], expected: Deed) {
    run.deed_is(SORT, asked, rectangle(sides), u32::from(INDEX), &expected);
}
