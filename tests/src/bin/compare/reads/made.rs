//! Files made at random: every cell of small ones, some of the others.

use gvrs_tests::build::build;
use gvrs_tests::page::{Body, Page, TileDirectory};
use gvrs_tests::prng::Prng;
use gvrs_tests::random_page::random_page;
use gvrs_tests::second::cells::{Cell, Content};

use super::ask::Asked;
use super::described::{Described, Inside};
use crate::run::Run;

const EVERY_CELL: &str = "every cell and content of small pages";
const SOME_CELLS: &str = "cells and contents of pages at random";

const OVER_THE_EDGE: &str = "a stored cell of a tile over the grid's edge";
const OUTSIDE_RECTANGLE: &str = "fill: a tile outside the directory's rectangle";
const ZERO_REFERENCE: &str = "fill: a tile with a zero reference";
const STANDARD: &str = "a stored cell by standard references";
const COMPACT: &str = "a stored cell by compact references";
const PARTIAL: &str = "a stored cell, where the rectangle is a part of the tile grid";
const MIXED_STORED: &str = "a stored cell beside a compressed element of its tile";
const MIXED_COMPRESSED: &str = "a compressed element beside one that is not";
const BEHIND_PADDING: &str = "a stored cell behind an element with padding";
const LAST_OF_MANY: &str = "a stored cell of the fifth element or a later one";
const CHECKSUMS_OFF: &str = "a stored cell, checksums off";
const NOTHING_SHARED: &str = "files where no byte is of two stored cells";
const CONTENT_BYTES: &str = "a content that is the element's own bytes, U of them";
const CONTENT_PADDED: &str = "a content with padding behind it";

pub fn section(run: &mut Run, random: &mut Prng) {
    let things = [
        OVER_THE_EDGE,
        OUTSIDE_RECTANGLE,
        ZERO_REFERENCE,
        STANDARD,
        COMPACT,
        PARTIAL,
        MIXED_STORED,
        MIXED_COMPRESSED,
        BEHIND_PADDING,
        LAST_OF_MANY,
        CHECKSUMS_OFF,
        NOTHING_SHARED,
        CONTENT_BYTES,
        CONTENT_PADDED,
    ];
    for thing in things {
        run.reads.want(thing);
    }
    every_cell(run, random);
    some_cells(run, random);
}

/// Pages of at most so many cells, of all elements together.
const MOST_CELLS: usize = 400;

fn every_cell(run: &mut Run, random: &mut Prng) {
    for _ in 0..run.times(400) {
        let page = small_page(random);
        let built = build(&page);
        let described = Described::new(&page, &built);
        let asked = Asked::new(&built.bytes);
        let mut owned = vec![false; built.bytes.len()];
        let mut nothing_shared = true;
        for inside in described.all() {
            let cell = one_cell(run, EVERY_CELL, &described, &asked, inside, random);
            nothing_shared &= cell.is_none_or(|cell| takes_its_bytes(&mut owned, cell));
        }
        if nothing_shared {
            run.reads.reached(NOTHING_SHARED);
        } else {
            run.fault("two stored cells share a byte", &built.bytes);
        }
        for tile in 0..page.tile_count() {
            for element in 0..page.elements.len() {
                one_content(run, EVERY_CELL, &described, &asked, tile, element);
            }
        }
    }
}

/// A page of few cells with a tile record or more.
pub fn small_page(random: &mut Prng) -> Page {
    loop {
        let page = random_page(random);
        let cells = page.tile_count() * (page.tile_rows * page.tile_columns) as usize;
        let stored = page.records.iter().any(|record| matches!(record.body, Body::Tile(_)));
        if stored && cells * page.elements.len() <= MOST_CELLS {
            return page;
        }
    }
}

/// Marks a stored cell's bytes. False if one of them is another cell's.
fn takes_its_bytes(owned: &mut [bool], cell: Cell) -> bool {
    let Cell::Stored { type_code, place, .. } = cell else {
        return true;
    };
    let size = if type_code == 3 { 2 } else { 4 };
    let bytes = &mut owned[place as usize..place as usize + size];
    let free = !bytes.contains(&true);
    bytes.fill(true);
    free
}

fn some_cells(run: &mut Run, random: &mut Prng) {
    for _ in 0..run.times(6000) {
        let page = random_page(random);
        let built = build(&page);
        let described = Described::new(&page, &built);
        let asked = Asked::new(&built.bytes);
        for _ in 0..8 {
            let inside = described.at_random(random);
            one_cell(run, SOME_CELLS, &described, &asked, inside, random);
            let tile = described.index(inside.tile);
            one_content(run, SOME_CELLS, &described, &asked, tile, inside.element);
        }
    }
}

/// One cell by every route, as the description has it. The answer, if all give it.
fn one_cell(
    run: &mut Run,
    sort: &str,
    described: &Described,
    asked: &Asked,
    inside: Inside,
    random: &mut Prng,
) -> Option<Cell> {
    let spot = described.spot(inside)?;
    let expected = described.cell(inside);
    let type_code = described.page.elements[inside.element].type_code;
    let mut all = true;
    for route in super::ask::routes(random) {
        if run.cell_is(sort, asked, spot, route, expected) {
            run.reads.of_type(type_code, &expected, route);
        } else {
            all = false;
        }
    }
    if all {
        note(run, described, inside, expected);
    }
    all.then_some(expected)
}

/// Counts what the cell is an instance of.
fn note(run: &mut Run, described: &Described, inside: Inside, cell: Cell) {
    match cell {
        Cell::Stored { .. } => note_stored(run, described, inside),
        Cell::Fill { .. } => note_fill(run, described, inside),
        Cell::Refused(_) | Cell::Unpacked { .. } => {
            let (contents, uncompressed) = contents_and_sizes(described, inside);
            if contents.iter().zip(&uncompressed).any(|(length, whole)| length == whole) {
                run.reads.reached(MIXED_COMPRESSED);
            }
        }
    }
}

/// L and U of each element of the cell's tile record.
fn contents_and_sizes(described: &Described, inside: Inside) -> (Vec<usize>, Vec<usize>) {
    let page = described.page;
    let contents = described.contents_of(described.index(inside.tile)).unwrap_or(&[]);
    let lengths = contents.iter().map(|field| field.width).collect();
    let sizes = (0..page.elements.len()).map(|element| page.uncompressed_size(element)).collect();
    (lengths, sizes)
}

fn note_stored(run: &mut Run, described: &Described, inside: Inside) {
    let page = described.page;
    let directory = directory(page);
    let whole = (page.tiles_down() as u32, page.tiles_across() as u32);
    let (lengths, sizes) = contents_and_sizes(described, inside);
    let before = &lengths[..inside.element];
    let standard = directory.standard == 1;
    let true_of_it = [
        (OVER_THE_EDGE, described.over_the_edge(inside.tile)),
        (STANDARD, standard),
        (COMPACT, !standard),
        (PARTIAL, (directory.rows, directory.columns) != whole),
        (MIXED_STORED, lengths.iter().zip(&sizes).any(|(length, whole)| length < whole)),
        (BEHIND_PADDING, before.iter().any(|length| length % 4 != 0)),
        (LAST_OF_MANY, inside.element >= 4),
        (CHECKSUMS_OFF, !page.checksums),
    ];
    for (thing, _) in true_of_it.iter().filter(|(_, holds)| *holds) {
        run.reads.reached(thing);
    }
}

fn note_fill(run: &mut Run, described: &Described, inside: Inside) {
    let directory = directory(described.page);
    let (row, column) = (inside.tile.0 as u32, inside.tile.1 as u32);
    let in_rows = row >= directory.row0 && row < directory.row0 + directory.rows;
    let in_columns = column >= directory.column0 && column < directory.column0 + directory.columns;
    run.reads.reached(if in_rows && in_columns { ZERO_REFERENCE } else { OUTSIDE_RECTANGLE });
}

fn directory(page: &Page) -> &TileDirectory {
    let found = page.records.iter().find_map(|record| match &record.body {
        Body::TileDirectory(directory) => Some(directory),
        _ => None,
    });
    found.expect("a page has a tile directory")
}

fn one_content(
    run: &mut Run,
    sort: &str,
    described: &Described,
    asked: &Asked,
    tile: usize,
    element: usize,
) {
    let expected = described.content(tile, element);
    if !run.content_is(sort, asked, (tile as u64, element as u64), expected) {
        return;
    }
    if let Content::Present { start, length } = expected {
        let own = own_content(described.page, tile, element);
        let part = &asked.file[start as usize..(start + length) as usize];
        if part != own || length as usize != described.page.uncompressed_size(element) {
            run.fault("a content is not the element's bytes", asked.file);
            return;
        }
        run.reads.reached(CONTENT_BYTES);
        if length % 4 != 0 {
            run.reads.reached(CONTENT_PADDED);
        }
    }
}

/// The bytes that the description gives an element in a tile.
fn own_content(page: &Page, tile: usize, element: usize) -> &[u8] {
    let found = page.records.iter().find_map(|record| match &record.body {
        Body::Tile(described) if described.index as usize == tile => Some(described),
        _ => None,
    });
    found.map_or(&[], |tile| &tile.contents[element])
}
