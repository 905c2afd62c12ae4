//! Rows, columns, elements and tiles at the edge of the grid, outside it, and far outside.

use gvrs_tests::build::build;
use gvrs_tests::prng::Prng;
use gvrs_tests::random_page::random_page;
use gvrs_tests::second::cells::{Cell, Content, Spot};

use super::ask::Asked;
use super::described::Described;
use crate::run::Run;

const SORT: &str = "numbers at the edge and outside";

const INSIDE: &str = "the last";
pub const OUTSIDE: [&str; 14] = [
    "the first outside",
    "the second outside",
    "2^16",
    "2^31 - 1",
    "2^31",
    "2^31 and a good one",
    "2^32 - 1",
    "2^32",
    "2^32 and a good one",
    "2^63",
    "2^63 and a good one",
    "2^64 - 1",
    "2^64 less the number of them",
    "2^64 less a good one",
];
const KINDS: [&str; 4] = ["row", "column", "element", "tile"];
const IN_THE_TILE: [&str; 2] =
    ["a row in a tile, outside the grid", "a column in a tile, outside the grid"];
const ALL_OUTSIDE: &str = "row, column and element outside together";

/// A number outside, given how many there are and one that is good.
pub fn outside(name: &str, count: u64, good: u64) -> u64 {
    match name {
        "the first outside" => count,
        "the second outside" => count + 1,
        "2^16" => (1 << 16) + count,
        "2^31 - 1" => (1 << 31) - 1,
        "2^31" => 1 << 31,
        "2^31 and a good one" => (1 << 31) + good,
        "2^32 - 1" => (1 << 32) - 1,
        "2^32" => 1 << 32,
        "2^32 and a good one" => (1 << 32) + good,
        "2^63" => 1 << 63,
        "2^63 and a good one" => (1 << 63) + good,
        "2^64 - 1" => u64::MAX,
        "2^64 less the number of them" => u64::MAX - count + 1,
        _ => u64::MAX - good,
    }
}

pub fn section(run: &mut Run, random: &mut Prng) {
    for kind in KINDS {
        run.reads.want(&format!("{kind}: {INSIDE}"));
        for name in OUTSIDE {
            run.reads.want(&format!("{kind}: {name}"));
        }
    }
    for thing in IN_THE_TILE {
        run.reads.want(thing);
    }
    run.reads.want(ALL_OUTSIDE);
    for _ in 0..run.times(300) {
        let page = random_page(random);
        let built = build(&page);
        let described = Described::new(&page, &built);
        let asked = Asked::new(&built.bytes);
        the_last(run, &described, &asked, random);
        cells_outside(run, &described, &asked, random);
        contents_outside(run, &described, &asked, random);
        in_a_tile(run, &described, &asked, random);
    }
}

/// The greatest numbers that are inside: both must not refuse them as outside.
fn the_last(run: &mut Run, described: &Described, asked: &Asked, random: &mut Prng) {
    let page = described.page;
    let spot = described.spot(described.at_random(random)).expect("in the grid");
    let spots = [
        Spot { row: u64::from(page.grid_rows) - 1, ..spot },
        Spot { column: u64::from(page.grid_columns) - 1, ..spot },
        Spot { element: page.elements.len() as u64 - 1, ..spot },
    ];
    for (kind, spot) in KINDS.into_iter().zip(spots) {
        for route in super::ask::routes(random) {
            let answer = run.cell(SORT, asked, spot, route);
            inside(run, asked, kind, answer.map(|cell| cell.as_numbers().0));
        }
    }
    let tile = page.tile_count() as u64 - 1;
    let answer = run.content(SORT, asked, tile, spot.element);
    inside(run, asked, "tile", answer.map(|content| content.as_numbers().0));
}

fn inside(run: &mut Run, asked: &Asked, kind: &str, number: Option<u32>) {
    match number {
        Some(10) => run.fault(&format!("{kind}: the last is refused"), asked.file),
        Some(_) => run.reads.reached(&format!("{kind}: {INSIDE}")),
        None => (),
    }
}

/// One of the three outside, the others those of a cell of the grid.
fn cells_outside(run: &mut Run, described: &Described, asked: &Asked, random: &mut Prng) {
    let page = described.page;
    let good = described.spot(described.at_random(random)).expect("in the grid");
    let (rows, columns) = (u64::from(page.grid_rows), u64::from(page.grid_columns));
    let elements = page.elements.len() as u64;
    for name in OUTSIDE {
        let row = outside(name, rows, good.row);
        let column = outside(name, columns, good.column);
        let element = outside(name, elements, good.element);
        refused(run, asked, Spot { row, ..good }, &format!("row: {name}"), random);
        refused(run, asked, Spot { column, ..good }, &format!("column: {name}"), random);
        refused(run, asked, Spot { element, ..good }, &format!("element: {name}"), random);
        refused(run, asked, Spot { row, column, element }, ALL_OUTSIDE, random);
    }
}

fn refused(run: &mut Run, asked: &Asked, spot: Spot, thing: &str, random: &mut Prng) {
    if run.cell_is_by_all(SORT, asked, spot, Cell::Refused((10, 0)), random) {
        run.reads.reached(thing);
    }
}

fn contents_outside(run: &mut Run, described: &Described, asked: &Asked, random: &mut Prng) {
    let page = described.page;
    let inside = described.at_random(random);
    let (tile, element) = (described.index(inside.tile) as u64, inside.element as u64);
    let (tiles, elements) = (page.tile_count() as u64, page.elements.len() as u64);
    for name in OUTSIDE {
        let far_tile = outside(name, tiles, tile);
        let far_element = outside(name, elements, element);
        for asked_for in [(far_tile, element), (far_tile, far_element)] {
            if run.content_is(SORT, asked, asked_for, Content::Refused((10, 0))) {
                run.reads.reached(&format!("tile: {name}"));
            }
        }
        let asked_for = (tile, far_element);
        if run.content_is(SORT, asked, asked_for, Content::Refused((10, 0))) {
            run.reads.reached(&format!("element: {name}"));
        }
    }
}

/// Rows and columns of the last tiles that lie outside the grid, whether stored or not.
fn in_a_tile(run: &mut Run, described: &Described, asked: &Asked, random: &mut Prng) {
    let page = described.page;
    let good = described.spot(described.at_random(random)).expect("in the grid");
    let rows_end = page.tiles_down() as u64 * u64::from(page.tile_rows);
    let columns_end = page.tiles_across() as u64 * u64::from(page.tile_columns);
    if rows_end > u64::from(page.grid_rows) {
        for row in [u64::from(page.grid_rows), rows_end - 1] {
            refused(run, asked, Spot { row, ..good }, IN_THE_TILE[0], random);
        }
    }
    if columns_end > u64::from(page.grid_columns) {
        for column in [u64::from(page.grid_columns), columns_end - 1] {
            refused(run, asked, Spot { column, ..good }, IN_THE_TILE[1], random);
        }
    }
}
