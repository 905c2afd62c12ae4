//! Document 01's sample sums of cells, and Req 10's.

use gvrs_tests::build::build;
use gvrs_tests::page::{Body, Element, Page, Tile, SHORT};
use gvrs_tests::prng::Prng;
use gvrs_tests::second::cells::{Cell, Content, Location, Spot};

use super::ask::Asked;
use crate::run::Run;

const SORT: &str = "sample sums of cells";

const NINE_TILES: &str = "sample: grid 5 by 7, tile 2 by 3: nine tiles";
const LAST_CELL: &str = "sample: cell (4, 6) is tile 8, number 0";
const BYTE_10: &str = "sample: cell (3, 5) begins at content byte 10 of tile 4";
const OUTSIDE: &str = "sample: (5, 0) is refusal 10";
const OF_18: [(usize, &str); 3] = [
    (18, "sample: L 18 of U 18 stored"),
    (17, "sample: L 17 of U 18 compressed"),
    (1, "sample: L 1 of U 18 compressed"),
];

const ONE_TILE: [&str; 3] = [
    "sample: tile 4 alone: (3, 5) is stored, tile 4, number 5",
    "sample: tile 4 alone: (4, 6) is fill, tile 8, number 0",
    "sample: tile 4 alone: (5, 0) is refusal 10, with zeros",
];

pub fn section(run: &mut Run, random: &mut Prng) {
    for thing in [NINE_TILES, LAST_CELL, BYTE_10, OUTSIDE].iter().chain(&ONE_TILE) {
        run.reads.want(thing);
    }
    five_by_seven(run, random);
    one_tile(run, random);
    for (length, thing) in OF_18 {
        run.reads.want(thing);
        of_18(run, length, thing, random);
    }
}

/// Grid 5 by 7, tiles 2 by 3, of which these are stored. A cell's bits are its number inside and a
/// multiple of its tile's index.
fn page_of(indexes: impl Iterator<Item = u32>, times: u32) -> Page {
    let mut page = Page::of_sides([5, 7], [2, 3]);
    page.elements = vec![Element::new(SHORT, b"z")];
    for (at, index) in indexes.enumerate() {
        let cell = |number: u32| ((times * index + number) as u16).to_le_bytes();
        let contents = vec![(0..6).flat_map(cell).collect()];
        page.insert(at, Body::Tile(Tile { index, contents }));
    }
    page
}

/// Tile 4 alone, stored as 0 to 5.
fn one_tile(run: &mut Run, random: &mut Prng) {
    let built = build(&page_of(4..5, 0));
    let asked = Asked::new(&built.bytes);
    let place = built.only("content").at as u64 + 10;
    let stored = Cell::Stored {
        type_code: SHORT,
        bits: 5,
        place,
        location: Location { tile: 4, inside: 5 },
    };
    let fill = Cell::Fill { type_code: SHORT, bits: 0, location: Location { tile: 8, inside: 0 } };
    let numbers = [
        ((3, 5), stored, (32, [3, 5, place, 4, 5])),
        ((4, 6), fill, (33, [3, 0, 0, 8, 0])),
        ((5, 0), Cell::Refused((10, 0)), (10, [0; 5])),
    ];
    for (((row, column), expected, numbers), thing) in numbers.into_iter().zip(ONE_TILE) {
        let spot = Spot { row, column, element: 0 };
        let by_all = run.cell_is_by_all(SORT, &asked, spot, expected, random);
        if by_all && expected.as_numbers() == numbers {
            run.reads.reached(thing);
        }
    }
}

fn five_by_seven(run: &mut Run, random: &mut Prng) {
    let built = build(&page_of(0..9, 16));
    let asked = Asked::new(&built.bytes);
    let contents = built.named("content");
    let mut nine = true;
    for (tile, field) in contents.iter().enumerate() {
        let expected = Content::Present { start: field.at as u64, length: 12 };
        nine &= run.content_is(SORT, &asked, (tile as u64, 0), expected);
    }
    if nine && run.content_is(SORT, &asked, (9, 0), Content::Refused((10, 0))) {
        run.reads.reached(NINE_TILES);
    }
    let stored = |tile: usize, number: usize| Cell::Stored {
        type_code: SHORT,
        bits: (16 * tile + number) as u32,
        place: (contents[tile].at + 2 * number) as u64,
        location: Location { tile: tile as u64, inside: number as u64 },
    };
    let samples = [
        ((4, 6), stored(8, 0), LAST_CELL),
        ((3, 5), stored(4, 5), BYTE_10),
        ((5, 0), Cell::Refused((10, 0)), OUTSIDE),
    ];
    for ((row, column), expected, thing) in samples {
        let spot = Spot { row, column, element: 0 };
        if run.cell_is_by_all(SORT, &asked, spot, expected, random) {
            run.reads.reached(thing);
        }
    }
}

/// One Short, 3 by 3, with a content of this length.
fn of_18(run: &mut Run, length: usize, thing: &str, random: &mut Prng) {
    let mut page = Page::of_sides([3, 3], [3, 3]);
    page.elements = vec![Element::new(SHORT, b"z")];
    page.insert(0, Body::Tile(Tile { index: 0, contents: vec![vec![7; length]] }));
    let built = build(&page);
    let asked = Asked::new(&built.bytes);
    let place = built.named("content")[0].at as u64 + 16;
    let compressed = (11, built.starts[0] as u64);
    let (cell, content) = if length == 18 {
        let location = Location { tile: 0, inside: 8 };
        let stored = Cell::Stored { type_code: SHORT, bits: 0x0707, place, location };
        (stored, Content::Present { start: place - 16, length: 18 })
    } else {
        (Cell::Refused(compressed), Content::Refused(compressed))
    };
    let spot = Spot { row: 2, column: 2, element: 0 };
    let by_all = run.cell_is_by_all(SORT, &asked, spot, cell, random);
    if run.content_is(SORT, &asked, (0, 0), content) && by_all {
        run.reads.reached(thing);
    }
}
