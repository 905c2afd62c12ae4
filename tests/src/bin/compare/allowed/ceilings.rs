//! Each house ceiling itself is allowed.

use gvrs_tests::build::{build, bytes_of};
use gvrs_tests::page::{Body, Element, Metadata, Page, Tile, TileDirectory, INTEGER, SHORT};
use gvrs_tests::prng::Prng;

use crate::run::Run;

const FILE_CEILING: usize = 16_777_216;

pub fn section(run: &mut Run, _: &mut Prng) {
    longest_file(run);
    longest_grid_sides(run);
    longest_tile_sides(run);
    most_tiles(run);
    most_elements(run);
    most_tile_bytes(run);
    length_fields_not_counted(run);
}

/// A page whose directory covers one tile, with this tile stored.
fn page_with_tile(grid: [u32; 2], tile: [u32; 2], row: u32, column: u32) -> Page {
    let mut page = Page::plain();
    [page.grid_rows, page.grid_columns] = grid;
    [page.tile_rows, page.tile_columns] = tile;
    page.records[0].body = Body::TileDirectory(TileDirectory::compact(row, column, 1, 1));
    let index = row * page.tiles_across() as u32 + column;
    page.insert(0, Body::Tile(Tile { index, contents: vec![vec![7; 1]] }));
    page
}

/// One free record, or one metadata record, that brings the file to its ceiling.
fn longest_file(run: &mut Run) {
    let mut page = Page::plain();
    page.insert(0, Body::Free(16));
    page.insert(0, Body::FileSpaceDirectory(vec![1]));
    page.records[1].surplus = FILE_CEILING - bytes_of(&page).len();
    let file = bytes_of(&page);
    assert_eq!(file.len(), FILE_CEILING);
    run.accept("a file of 16,777,216 bytes", &file);

    let mut page = Page::plain();
    page.insert(0, Body::Metadata(Metadata::new(b"Author", 0)));
    page.insert(0, Body::MetadataDirectory(vec![1]));
    let missing = FILE_CEILING - bytes_of(&page).len();
    if let Body::Metadata(metadata) = &mut page.records[1].body {
        metadata.content = vec![0x5a; missing];
    }
    let file = bytes_of(&page);
    assert_eq!(file.len(), FILE_CEILING);
    run.accept("a file of 16,777,216 bytes", &file);
}

fn longest_grid_sides(run: &mut Run) {
    let page = page_with_tile([65_536, 65_536], [4096, 64], 15, 1023);
    run.accept("grid sides of 65,536", &bytes_of(&page));
    let page = page_with_tile([65_536, 1], [1, 1], 65_535, 0);
    run.accept("grid sides of 65,536", &bytes_of(&page));
    let page = page_with_tile([1, 65_536], [1, 1], 0, 65_535);
    run.accept("grid sides of 65,536", &bytes_of(&page));
}

fn longest_tile_sides(run: &mut Run) {
    let page = page_with_tile([65_536, 8], [4096, 1], 15, 7);
    run.accept("tile sides of 4,096", &bytes_of(&page));
    let page = page_with_tile([8, 65_536], [1, 4096], 7, 15);
    run.accept("tile sides of 4,096", &bytes_of(&page));
}

/// 65,536 tiles, the directory covering them all in both forms.
fn most_tiles(run: &mut Run) {
    for grid in [[256, 256], [65_536, 1], [1, 65_536], [512, 128]] {
        let mut page = page_with_tile(grid, [1, 1], 0, 0);
        page.list_whole_grid();
        run.accept("65,536 tiles", &bytes_of(&page));
        if let Body::TileDirectory(directory) = &mut page.records[1].body {
            directory.standard = 1;
        }
        let last = Tile { index: 65_535, contents: vec![vec![7; 4]] };
        page.insert(2, Body::Tile(last));
        run.accept("65,536 tiles", &bytes_of(&page));
    }
}

/// Sixteen elements; tiles of 64 cells.
fn page_of_16(type_code: u8) -> Page {
    let mut page = Page::of_sides([8, 8], [8, 8]);
    let name = |number: u8| vec![b'e', b'a' + number];
    page.elements = (0..16).map(|number| Element::new(type_code, &name(number))).collect();
    page
}

fn most_elements(run: &mut Run) {
    for type_code in 0..4 {
        let mut page = page_of_16(type_code);
        let contents = (0..16).map(|element| vec![7; page.uncompressed_size(element)]).collect();
        page.insert(0, Body::Tile(Tile { index: 0, contents }));
        run.accept("16 elements", &bytes_of(&page));
    }
}

fn most_tile_bytes(run: &mut Run) {
    for length in [1, 1_048_575, 1_048_576] {
        let mut page = Page::of_sides([4096, 64], [4096, 64]);
        page.insert(0, Body::Tile(Tile { index: 0, contents: vec![vec![7; length]] }));
        run.accept("tile bytes of 1,048,576", &bytes_of(&page));
    }
    let mut page = page_of_16(INTEGER);
    [page.tile_rows, page.tile_columns] = [4096, 4];
    run.accept("tile bytes of 1,048,576", &bytes_of(&page));
    let mut page = Page::of_sides([4096, 128], [4096, 128]);
    page.elements = vec![Element::new(SHORT, b"z")];
    run.accept("tile bytes of 1,048,576", &bytes_of(&page));
}

/// 16 Short elements of 217 by 151 cells: 1,048,544 bytes, with length fields and padding more than
/// the ceiling.
fn length_fields_not_counted(run: &mut Run) {
    let mut page = page_of_16(SHORT);
    [page.tile_rows, page.tile_columns] = [217, 151];
    let contents = vec![vec![7; 65_534]; 16];
    page.insert(0, Body::Tile(Tile { index: 0, contents }));
    let built = build(&page);
    assert!(built.length(0) > 1_048_576);
    run.accept("tile bytes without length fields and padding", &built.bytes);
}
