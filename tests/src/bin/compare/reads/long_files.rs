//! Cells at the house ceilings: as many tiles as there may be, the longest sides, the largest tile.

use gvrs_tests::build::build;
use gvrs_tests::page::{Body, Element, Page, Record, Tile, TileDirectory, SHORT};
use gvrs_tests::prng::Prng;

use super::ask::Asked;
use super::described::{Described, Inside};
use crate::run::Run;

const SORT: &str = "pages at the ceilings";

const MANY_TILES: &str = "first, middle and last of 65,536 tile records";
const LONGEST_SIDES: &str = "the last cell of a grid of 65,536 by 65,536";
const LARGEST_TILE: &str = "the last cell of a tile of 1,048,576 bytes";
const SIXTEEN_ELEMENTS: &str = "each of 16 elements of a tile";

pub fn section(run: &mut Run, random: &mut Prng) {
    for thing in [MANY_TILES, LONGEST_SIDES, LARGEST_TILE, SIXTEEN_ELEMENTS] {
        run.reads.want(thing);
    }
    many_tiles(run, random);
    longest_sides(run, random);
    largest_tile(run, random);
    sixteen_elements(run, random);
}

/// These cells by every route, and the content that they are in.
fn each(run: &mut Run, page: &Page, cells: &[Inside], thing: &str, random: &mut Prng) {
    let built = build(page);
    let described = Described::new(page, &built);
    let asked = Asked::new(&built.bytes);
    for inside in cells {
        let spot = described.spot(*inside).expect("in the grid");
        let by_all = run.cell_is_by_all(SORT, &asked, spot, described.cell(*inside), random);
        let tile = described.index(inside.tile);
        let content = described.content(tile, inside.element);
        if run.content_is(SORT, &asked, (tile as u64, spot.element), content) && by_all {
            run.reads.reached(thing);
        }
    }
}

fn many_tiles(run: &mut Run, random: &mut Prng) {
    let page = page_of_many_tiles(random);
    let inside = |tile| Inside { tile, cell: (0, 0), element: 0 };
    let cells = [(0, 0), (0, 255), (100, 7), (128, 128), (255, 0), (255, 255)].map(inside);
    each(run, &page, &cells, MANY_TILES, random);
}

/// Tiles of one Short each, some indexes far from their place in the file.
pub fn page_of_many_tiles(random: &mut Prng) -> Page {
    let mut page = Page::of_sides([256, 256], [1, 1]);
    page.elements = vec![Element::new(SHORT, b"z")];
    let mut indexes: Vec<u32> = (0..65_536).collect();
    random.shuffle(&mut indexes[20_000..40_000]);
    for index in indexes {
        let contents = vec![(index as u16).to_le_bytes().to_vec()];
        page.records.push(Record::new(Body::Tile(Tile { index, contents })));
    }
    page
}

/// The last tile alone is stored, and listed by a rectangle of its own.
fn longest_sides(run: &mut Run, random: &mut Prng) {
    let mut page = Page::of_sides([65_536, 65_536], [256, 256]);
    page.elements = vec![Element::new(SHORT, b"z")];
    page.records[0].body = Body::TileDirectory(TileDirectory::compact(255, 255, 1, 1));
    let contents = vec![random.bytes(2 * 65_536)];
    page.insert(0, Body::Tile(Tile { index: 65_535, contents }));
    let last = Inside { tile: (255, 255), cell: (255, 255), element: 0 };
    let first = Inside { cell: (0, 0), ..last };
    let absent = Inside { tile: (255, 254), ..last };
    each(run, &page, &[last, first, absent], LONGEST_SIDES, random);
}

fn largest_tile(run: &mut Run, random: &mut Prng) {
    for (rows, columns) in [(4096, 64), (64, 4096)] {
        let mut page = Page::of_sides([rows, columns], [rows, columns]);
        let contents = vec![random.bytes(1 << 20)];
        page.insert(0, Body::Tile(Tile { index: 0, contents }));
        let end = (rows as usize - 1, columns as usize - 1);
        let inside = |cell| Inside { tile: (0, 0), cell, element: 0 };
        let cells = [(0, 0), (0, end.1), (end.0, 0), end].map(inside);
        each(run, &page, &cells, LARGEST_TILE, random);
    }
}

fn sixteen_elements(run: &mut Run, random: &mut Prng) {
    let mut page = Page::of_sides([3, 3], [3, 3]);
    let named = |number: u8| Element::new(number % 4, &[b'a' + number]);
    page.elements = (0..16).map(named).collect();
    let sizes: Vec<usize> = (0..16).map(|element| page.uncompressed_size(element)).collect();
    let contents = sizes.iter().map(|size| random.bytes(*size)).collect();
    page.insert(0, Body::Tile(Tile { index: 0, contents }));
    let inside = |element| Inside { tile: (0, 0), cell: (2, 2), element };
    let cells: Vec<Inside> = (0..16).map(inside).collect();
    each(run, &page, &cells, SIXTEEN_ELEMENTS, random);
}
