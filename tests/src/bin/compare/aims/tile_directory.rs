//! Refusal 9: the tile directory, and directories that nothing refers to.

use gvrs_tests::build::{Built, Field};
use gvrs_tests::page::{Body, Page, Tile, TileDirectory};
use gvrs_tests::prng::Prng;
use gvrs_tests::random_page::{contents, put_anywhere};
use gvrs_tests::second::chain;

use super::changes;
use crate::damage::{Aim, At};

const REFERENCE: &str = "tile directory reference";

pub fn aims() -> Vec<Aim> {
    let mut aims = reference_aims();
    aims.extend(form_aims());
    aims.extend(rectangle_aims());
    aims.extend(fit_aims());
    aims.extend(listing_aims());
    aims
}

// The reference to the directory.

fn reference_aims() -> Vec<Aim> {
    vec![
        Aim::bytes(9, "the tile directory reference is not zero", |built, _| {
            changes::zero(built, REFERENCE)
        }),
        Aim::bytes(9, "the tile directory reference is the content", |built, random| {
            let field = built.only(REFERENCE);
            changes::wrong_content(built, &field, random)
        }),
        Aim::bytes(9, "the tile directory reference is to a type 5", |built, random| {
            changes::content_of_another(built, REFERENCE, random)
        }),
        Aim::length(9, "a tile directory always exists", file_of_a_header_only),
        Aim::description(9, "no other record of type 5", |page, random| {
            let directory = TileDirectory::compact(0, 0, 0, 0);
            put_anywhere(page, Body::TileDirectory(directory), random);
            Some(At::Header)
        }),
    ]
}

fn file_of_a_header_only(built: &mut Built, random: &mut Prng) -> Option<At> {
    built.bytes.truncate(built.starts[0]);
    let field = built.only(REFERENCE);
    let end = built.starts[0] as u64;
    built.set(&field, random.pick(&[0, end, end + 8]));
    for name in ["metadata reference", "file-space reference"] {
        let field = built.only(name);
        built.set(&field, 0);
    }
    Some(At::Header)
}

// The form of reference.

fn form_aims() -> Vec<Aim> {
    vec![
        Aim::bytes(9, "the directory format is 0", |built, random| {
            let field = built.only("directory format");
            built.set(&field, random.pick(&[1, 2, 255]));
            Some(At::Header)
        }),
        Aim::bytes(9, "standard references is 0 or 1", |built, random| {
            let field = built.only("standard references");
            built.set(&field, random.pick(&[2, 3, 255]));
            Some(At::Header)
        }),
    ]
}

// The rectangle.

fn rectangle_aims() -> Vec<Aim> {
    vec![
        Aim::bytes(9, "row0 is not negative", |built, random| negative(built, "row0", random)),
        Aim::bytes(9, "column0 is not negative", |built, random| {
            negative(built, "column0", random)
        }),
        Aim::bytes(9, "directory rows is not negative", |built, random| {
            negative(built, "directory rows", random)
        }),
        Aim::bytes(9, "directory columns is not negative", |built, random| {
            negative(built, "directory columns", random)
        }),
        Aim::description(9, "the rectangle ends inside the tile grid: rows", rows_outside),
        Aim::description(9, "the rectangle ends inside the tile grid: columns", columns_outside),
        Aim::description(9, "a row start outside, where columns are 0", empty_rows_outside),
        Aim::description(9, "a column start outside, where rows are 0", empty_columns_outside),
        Aim::bytes(9, "start plus side does not wrap", start_plus_side),
    ]
}

fn negative(built: &mut Built, name: &str, random: &mut Prng) -> Option<At> {
    changes::negative(built, name, random)?;
    Some(At::Header)
}

fn directory(page: &mut Page) -> &mut TileDirectory {
    let found = page.records.iter_mut().find_map(|record| match &mut record.body {
        Body::TileDirectory(directory) => Some(directory),
        _ => None,
    });
    found.expect("a page has a tile directory")
}

/// One row of zero references more than the tile grid has.
fn rows_outside(page: &mut Page, random: &mut Prng) -> Option<At> {
    let down = page.tiles_down() as u32;
    let more = random.between(1, 3) as u32;
    let directory = directory(page);
    directory.rows = down.checked_sub(directory.row0)? + more;
    (directory.rows * directory.columns <= 1024).then_some(At::Header)
}

fn columns_outside(page: &mut Page, random: &mut Prng) -> Option<At> {
    let across = page.tiles_across() as u32;
    let more = random.between(1, 3) as u32;
    let directory = directory(page);
    directory.columns = across.checked_sub(directory.column0)? + more;
    (directory.rows * directory.columns <= 1024).then_some(At::Header)
}

fn without_tiles(page: &mut Page) {
    while let Some(number) = page.of_type(chain::TILE).first() {
        page.remove(*number);
    }
}

fn empty_rows_outside(page: &mut Page, random: &mut Prng) -> Option<At> {
    without_tiles(page);
    let down = page.tiles_down() as u32;
    let (row0, rows) = random.pick(&[(down + 1, 0), (down, 1), (0, down + 1), (1, down)]);
    *directory(page) = TileDirectory::compact(row0, 0, rows, 0);
    Some(At::Header)
}

fn empty_columns_outside(page: &mut Page, random: &mut Prng) -> Option<At> {
    without_tiles(page);
    let across = page.tiles_across() as u32;
    let starts = [(across + 1, 0), (across, 1), (0, across + 1), (1, across)];
    let (column0, columns) = random.pick(&starts);
    *directory(page) = TileDirectory::compact(0, column0, 0, columns);
    Some(At::Header)
}

/// A start so large that start plus side is small again in 32 bits, or nearly so.
fn start_plus_side(built: &mut Built, random: &mut Prng) -> Option<At> {
    let (start, side) =
        random.pick(&[("row0", "directory rows"), ("column0", "directory columns")]);
    let (start, side) = (built.only(start), built.only(side));
    let start_value = random.pick(&[0x7fff_ffff, 0x7fff_0000]);
    built.set(&start, start_value);
    if random.one_in(2) {
        built.set(&side, 0x7fff_ffff);
    }
    Some(At::Header)
}

// Counts and padding.

fn fit_aims() -> Vec<Aim> {
    vec![
        Aim::bytes(9, "the tile references fit", references_do_not_fit),
        Aim::description(9, "0 to 7 padding bytes in the tile directory", |page, random| {
            let number = page.of_type(chain::TILE_DIRECTORY)[0];
            page.records[number].surplus = 8 * random.between(1, 3);
            Some(At::Header)
        }),
        Aim::description(9, "the tile directory's own fields fit", fields_do_not_fit),
    ]
}

/// One row or column more inside the tile grid, for which the record has no place.
fn references_do_not_fit(built: &mut Built, random: &mut Prng) -> Option<At> {
    let (down, across) = changes::tile_grid(built);
    let value = |name| built.value(&built.only(name));
    let (rows, columns) = (value("directory rows"), value("directory columns"));
    let more_rows = value("row0") + rows < down && columns >= 2;
    let more_columns = value("column0") + columns < across && rows >= 2;
    let name = match (more_rows, more_columns) {
        (true, true) => random.pick(&["directory rows", "directory columns"]),
        (true, false) => "directory rows",
        (false, true) => "directory columns",
        (false, false) => return None,
    };
    let field = built.only(name);
    built.set(&field, built.value(&field) + 1);
    Some(At::Header)
}

/// A record of type 5 of 16 to 32 bytes.
fn fields_do_not_fit(page: &mut Page, random: &mut Prng) -> Option<At> {
    without_tiles(page);
    let number = page.of_type(chain::TILE_DIRECTORY)[0];
    let content = vec![0; random.pick(&[0, 4, 12, 20])];
    page.records[number].body = Body::Raw(chain::TILE_DIRECTORY, content);
    Some(At::Header)
}

// References to tiles.

fn listing_aims() -> Vec<Aim> {
    vec![
        Aim::bytes(9, "every tile record is listed: its reference is zero", tile_not_listed),
        Aim::description(9, "every tile record is listed: not in the rectangle", outside_rectangle),
        Aim::bytes(9, "every tile record is listed at its own index", |built, random| {
            changes::swapped(built, "tile reference", random)
        }),
        Aim::bytes(9, "a tile's index is not that of its place", index_of_a_free_place),
        Aim::bytes(9, "a tile reference is the content of a tile record", wrong_tile_reference),
        Aim::bytes(9, "a tile reference to a record of another type", tile_reference_to_other_type),
        Aim::bytes(9, "a reference where no tile is", reference_where_no_tile_is),
        Aim::description(9, "two tile records with one index", two_with_one_index),
        Aim::bytes(9, "compact taken for standard", form_taken_for_the_other),
    ]
}

fn references_to_tiles(built: &Built) -> Vec<Field> {
    let mut fields = built.named("tile reference");
    fields.retain(|field| built.value(field) != 0);
    fields
}

fn tile_not_listed(built: &mut Built, random: &mut Prng) -> Option<At> {
    let field = random.pick_any(&references_to_tiles(built))?;
    built.set(&field, 0);
    Some(At::Header)
}

/// A tile record outside the rectangle, at an index that no reference has.
fn outside_rectangle(page: &mut Page, random: &mut Prng) -> Option<At> {
    let (down, across) = (page.tiles_down(), page.tiles_across());
    let (row, column) = (random.below(down) as u32, random.below(across) as u32);
    let rectangle = directory(page);
    let in_rows = row >= rectangle.row0 && row < rectangle.row0 + rectangle.rows;
    let in_columns = column >= rectangle.column0 && column < rectangle.column0 + rectangle.columns;
    if in_rows && in_columns {
        return None;
    }
    let index = row * across as u32 + column;
    let contents = contents(page, random);
    put_anywhere(page, Body::Tile(Tile { index, contents }), random);
    Some(At::Header)
}

/// The record's own index becomes another that is below the tile count.
fn index_of_a_free_place(built: &mut Built, random: &mut Prng) -> Option<At> {
    let field = random.pick_any(&built.named("tile index"))?;
    let (down, across) = changes::tile_grid(built);
    let index = random.below((down * across) as usize) as u64;
    let own = built.value(&field);
    built.set(&field, index);
    (index != own).then_some(At::Header)
}

/// The record's start, a place eight bytes on, or with bits above the true ones.
fn wrong_tile_reference(built: &mut Built, random: &mut Prng) -> Option<At> {
    let field = random.pick_any(&references_to_tiles(built))?;
    if field.width == 8 {
        return changes::wrong_content(built, &field, random);
    }
    let own = built.value(&field);
    let wrong = [own - 1, own + 1, own | 0x2000_0000, own | 0x8000_0000, own * 8, 0xffff_ffff];
    built.set(&field, random.pick(&wrong));
    Some(At::Header)
}

fn content_as(field: &Field, start: usize) -> u64 {
    let content = start as u64 + 8;
    if field.width == 8 {
        content
    } else {
        content / 8
    }
}

fn tile_reference_to_other_type(built: &mut Built, random: &mut Prng) -> Option<At> {
    let field = random.pick_any(&built.named("tile reference"))?;
    let other = random.below(built.starts.len());
    let start = built.starts[other];
    built.set(&field, content_as(&field, start));
    (built.bytes[start + 4] != chain::TILE).then_some(At::Header)
}

/// A second reference to a tile, at another index.
fn reference_where_no_tile_is(built: &mut Built, random: &mut Prng) -> Option<At> {
    let mut empty = built.named("tile reference");
    empty.retain(|field| built.value(field) == 0);
    let to = random.pick_any(&empty)?;
    let from = random.pick_any(&references_to_tiles(built))?;
    built.set(&to, built.value(&from));
    Some(At::Header)
}

fn two_with_one_index(page: &mut Page, random: &mut Prng) -> Option<At> {
    let number = random.pick_any(&page.of_type(chain::TILE))?;
    let body = page.records[number].body.clone();
    put_anywhere(page, body, random);
    Some(At::Header)
}

/// The record then has too few bytes for its references, or too many.
fn form_taken_for_the_other(built: &mut Built, random: &mut Prng) -> Option<At> {
    random.pick_any(&references_to_tiles(built))?;
    let field = built.only("standard references");
    let other = 1 - built.value(&field);
    built.set(&field, other);
    Some(At::Header)
}
