//! The pages of Req 07's sample sums, cell by cell.

use gvrs_tests::build::bytes_of;
use gvrs_tests::page::{Body, Element, Page, Tile, SHORT};
use gvrs_tests::second::cells::{FILL, STORED};
use gvrs_tests::second::rectangles::{Area, Rectangle};

use crate::reads::ask::Asked;
use crate::run::Run;

const SORT: &str = "sample sums of rectangles";

/// The fill of both pages, which is a score too.
const NONE: u32 = 950;

/// Row, column, rows and columns; then the kinds and the scores.
type Sample = ([u64; 4], &'static [u32], &'static [i16]);

const F: u32 = FILL;
const S: u32 = STORED;

/// Grid 3 by 4, tiles 2 by 2.
const FIRST: [Sample; 9] = [
    ([0, 0, 2, 2], &[S, S, S, S], &[900, 1000, 950, 901]),
    ([0, 0, 2, 4], &[S, S, S, S, S, S, S, S], &[900, 1000, 899, 900, 950, 901, 900, 900]),
    ([1, 1, 1, 3], &[S, S, S], &[901, 900, 900]),
    ([0, 0, 3, 2], &[S, S, S, S, F, F], &[900, 1000, 950, 901, 950, 950]),
    ([2, 0, 1, 2], &[F, F], &[950, 950]),
    ([2, 2, 1, 2], &[S, S], &[-1, 1001]),
    ([3, 4, 0, 0], &[], &[]),
    ([0, 0, 3, 0], &[], &[]),
    ([3, 0, 0, 4], &[], &[]),
];
const REFUSED: [[u64; 4]; 5] =
    [[0, 0, 4, 1], [3, 0, 1, 1], [4, 0, 0, 1], [3, 5, 0, 0], [u64::MAX, 0, u64::MAX, 1]];

/// Grid 2 by 2, tiles 1 by 1: two tiles are compressed, in a byte that is no whole content.
const INDEX: u8 = 7;
const SECOND: [Sample; 4] = [
    ([0, 0, 2, 2], &[S, 14, 14, F], &[950, 0, 0, 950]),
    ([0, 0, 2, 1], &[S, 14], &[950, 0]),
    ([0, 0, 1, 1], &[S], &[950]),
    ([1, 1, 1, 1], &[F], &[950]),
];

pub fn section(run: &mut Run) {
    let first = page(
        [3, 4],
        [2, 2],
        &[(0, &[900, 1000, 950, 901]), (1, &[899, 900, 900, 900]), (3, &[-1, 1001, 0, 0])],
    );
    let file = bytes_of(&first);
    let asked = Asked::new(&file);
    for sample in FIRST {
        one(run, &asked, sample, u32::from(INDEX));
    }
    for sides in REFUSED {
        run.area_is(SORT, &asked, rectangle(sides), u32::from(INDEX), &Area::Refused((10, 0)));
    }
    let mut second = page([2, 2], [1, 1], &[(2, &[0]), (1, &[0]), (0, &[950])]);
    for record in &mut second.records {
        if let Body::Tile(tile) = &mut record.body {
            if tile.index > 0 {
                tile.contents[0] = vec![INDEX];
            }
        }
    }
    let file = bytes_of(&second);
    let asked = Asked::new(&file);
    for (sides, kinds, scores) in SECOND {
        one(run, &asked, (sides, kinds, scores), u32::from(INDEX));
        let unread = kinds.iter().map(|kind| if *kind == 14 { 11 } else { *kind }).collect();
        let expected = area(unread, scores);
        run.area_is(SORT, &asked, rectangle(sides), u32::from(INDEX) + 1, &expected);
    }
}

/// Tile records in this order, of one Short each cell.
pub fn page(grid: [u32; 2], tile: [u32; 2], tiles: &[(u32, &[i16])]) -> Page {
    let mut page = Page::of_sides(grid, tile);
    page.elements = vec![Element::new(SHORT, b"score")];
    page.elements[0].set_range_and_fill(0, 1000, NONE);
    for (at, (index, scores)) in tiles.iter().enumerate() {
        let content = scores.iter().flat_map(|score| score.to_le_bytes()).collect();
        page.insert(at, Body::Tile(Tile { index: *index, contents: vec![content] }));
    }
    page
}

pub fn rectangle([row, column, rows, columns]: [u64; 4]) -> Rectangle {
    Rectangle { element: 0, row, column, rows, columns }
}

fn area(kinds: Vec<u32>, scores: &[i16]) -> Area {
    let bits = scores.iter().map(|score| u32::from(*score as u16)).collect();
    Area::Read { kinds, bits }
}

fn one(run: &mut Run, asked: &Asked, (sides, kinds, scores): Sample, compressor: u32) {
    let expected = area(kinds.to_vec(), scores);
    run.area_is(SORT, asked, rectangle(sides), compressor, &expected);
}
