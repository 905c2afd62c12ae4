//! The tile index and the number inside the tile (Req 10) of every cell of pages of some shapes,
//! stored, unpacked, fill and refused, by every route.

use gvrs_tests::page::{Body, Element, Page, Tile, INTEGER, SHORT};
use gvrs_tests::prng::Prng;
use gvrs_tests::random_page::contents;
use gvrs_tests::second::cells::{Cell, Spot};

use super::ask::{routes, Asked};
use crate::face::mixed::Mixed;
use crate::run::Run;

const SORT: &str = "tile indexes and numbers inside";

/// The sides of the grid, and those of a tile.
const SHAPES: [(&str, [u32; 2], [u32; 2]); 5] = [
    ("a tile larger than the grid", [3, 5], [7, 9]),
    ("tiles of one cell", [3, 4], [1, 1]),
    ("tiles over the last row", [9, 10], [4, 5]),
    ("tiles over the last column", [8, 11], [4, 5]),
    ("tiles that fill the grid", [8, 15], [4, 5]),
];

pub fn section(run: &mut Run, random: &mut Prng) {
    for (shape, _, tile) in SHAPES {
        let kinds: &[&str] = match tile {
            [1, 1] => &["stored", "fill", "refused"],
            _ => &["stored", "unpacked", "fill", "refused"],
        };
        for kind in kinds {
            run.reads.want(&format!("{shape}: {kind}"));
        }
    }
    for _ in 0..run.times(60) {
        for (shape, grid, tile) in SHAPES {
            every_cell(run, shape, &page(grid, tile, random), random);
        }
    }
}

/// A Short and an Integer. About half of the tiles have a record.
fn page(grid: [u32; 2], tile: [u32; 2], random: &mut Prng) -> Mixed {
    let mut page = Page::of_sides(grid, tile);
    page.elements = vec![Element::new(SHORT, b"z"), Element::new(INTEGER, b"n")];
    for element in &mut page.elements {
        element.range_and_fill = random.bytes(element.range_and_fill.len());
    }
    for index in 0..page.tile_count() {
        if random.one_in(2) {
            let contents = contents(&page, random);
            let at = random.between(0, page.records.len());
            page.insert(at, Body::Tile(Tile { index: index as u32, contents }));
        }
    }
    Mixed::of(page, random)
}

/// As the description has them, and one outside the grid.
fn every_cell(run: &mut Run, shape: &str, mixed: &Mixed, random: &mut Prng) {
    let described = mixed.described();
    let asked = Asked::new(&mixed.built.bytes);
    for inside in described.all() {
        let spot = described.spot(inside).expect("in the grid");
        by_every_route(run, shape, &asked, spot, mixed, mixed.cell(inside), random);
    }
    let outside = Spot { row: u64::from(mixed.page.grid_rows), column: 0, element: 0 };
    by_every_route(run, shape, &asked, outside, mixed, Cell::Refused((10, 0)), random);
}

fn by_every_route(
    run: &mut Run,
    shape: &str,
    asked: &Asked,
    spot: Spot,
    mixed: &Mixed,
    expected: Cell,
    random: &mut Prng,
) {
    let mut all = true;
    for route in routes(random) {
        all &= run.cell_with_is(SORT, asked, (spot, route), mixed.compressor, expected);
    }
    let kind = match expected {
        Cell::Stored { .. } => "stored",
        Cell::Unpacked { .. } => "unpacked",
        Cell::Fill { .. } => "fill",
        Cell::Refused(_) => "refused",
    };
    if all {
        run.reads.reached(&format!("{shape}: {kind}"));
    }
}
