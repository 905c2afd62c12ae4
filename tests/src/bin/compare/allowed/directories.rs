//! What directories may be.

use gvrs_tests::build::{build, bytes_of, Built};
use gvrs_tests::page::{Body, Metadata, Page, Record, Tile, TileDirectory};
use gvrs_tests::prng::Prng;
use gvrs_tests::second::chain;

use crate::run::Run;

pub fn section(run: &mut Run, random: &mut Prng) {
    empty_rectangles(run);
    partial_rectangles(run, random);
    tile_directory_padding(run);
    references_zero(run);
    metadata_directory_padding(run);
    file_space_padding(run);
    lists_in_any_order(run);
    records_in_any_order(run);
}

/// A page of 3 by 4 tiles of one cell, with this directory and no tile record.
fn page_of_12_tiles(directory: TileDirectory) -> Page {
    let mut page = Page::of_sides([3, 4], [1, 1]);
    page.records[0].body = Body::TileDirectory(directory);
    page
}

/// A start and a side inside so many tiles, the empty ones too.
fn stretches(tiles: u32) -> Vec<(u32, u32)> {
    let mut stretches = Vec::new();
    for start in 0..=tiles {
        for side in 0..=tiles - start {
            stretches.push((start, side));
        }
    }
    stretches
}

fn rectangles() -> Vec<TileDirectory> {
    let mut rectangles = Vec::new();
    for (row0, rows) in stretches(3) {
        for (column0, columns) in stretches(4) {
            for standard in [0, 1] {
                let mut directory = TileDirectory::compact(row0, column0, rows, columns);
                directory.standard = standard;
                rectangles.push(directory);
            }
        }
    }
    rectangles
}

fn empty_rectangles(run: &mut Run) {
    for directory in rectangles() {
        let sentence = match (directory.rows, directory.columns) {
            (0, 0) => "an empty rectangle: no rows and no columns",
            (0, _) => "an empty rectangle: no rows",
            (_, 0) => "an empty rectangle: no columns",
            _ => continue,
        };
        run.accept(sentence, &bytes_of(&page_of_12_tiles(directory)));
    }
}

/// Every rectangle, with some of its tiles stored.
fn partial_rectangles(run: &mut Run, random: &mut Prng) {
    for directory in rectangles() {
        let sentence = match directory.standard {
            0 => "a rectangle of part of the tile grid, compact references",
            _ => "a rectangle of part of the tile grid, standard references",
        };
        let mut page = page_of_12_tiles(directory.clone());
        for row in directory.row0..directory.row0 + directory.rows {
            for column in directory.column0..directory.column0 + directory.columns {
                if random.one_in(2) {
                    let tile = Tile { index: row * 4 + column, contents: vec![vec![7; 4]] };
                    page.insert(random.between(0, page.records.len()), Body::Tile(tile));
                }
            }
        }
        if directory.rows * directory.columns > 0 {
            run.accept(sentence, &bytes_of(&page));
        }
    }
}

fn padding(built: &Built, owner: usize) -> usize {
    built.named_in("padding", owner).first().map_or(0, |field| field.width)
}

/// References have four or eight bytes, so padding has none or four.
fn tile_directory_padding(run: &mut Run) {
    let mut seen = [false; 8];
    for columns in 0..=4 {
        let built = build(&page_of_12_tiles(TileDirectory::compact(0, 0, 1, columns)));
        seen[padding(&built, 0)] = true;
        run.accept("0 or 4 padding bytes in a tile directory", &built.bytes);
    }
    assert!(seen[0] && seen[4], "both numbers of padding bytes in a tile directory");
}

fn references_zero(run: &mut Run) {
    run.accept("metadata and file-space references are zero", &bytes_of(&Page::plain()));
    let mut page = Page::plain();
    page.insert(0, Body::MetadataDirectory(Vec::new()));
    run.accept("an empty metadata directory", &bytes_of(&page));
    let mut page = Page::plain();
    page.insert(1, Body::MetadataDirectory(Vec::new()));
    run.accept("an empty metadata directory", &bytes_of(&page));
}

fn metadata_directory_padding(run: &mut Run) {
    let mut seen = [false; 8];
    for length in 1..=16 {
        let mut page = Page::plain();
        page.insert(0, Body::Metadata(Metadata::new(&vec![b'm'; length], 3)));
        page.insert(1, Body::MetadataDirectory(vec![0]));
        let built = build(&page);
        seen[padding(&built, 1)] = true;
        run.accept("0 to 7 padding bytes in a metadata directory", &built.bytes);
    }
    assert_eq!(seen, [true; 8], "every number of padding bytes in a metadata directory");
}

/// Entries have twelve bytes, so padding has none or four.
fn file_space_padding(run: &mut Run) {
    let mut seen = [false; 8];
    for count in 1..=4 {
        let mut page = Page::plain();
        page.insert(0, Body::FileSpaceDirectory((1..=count).collect()));
        for number in 1..=count {
            page.records.insert(number, Record::new(Body::Free(8 * number + 8)));
        }
        let built = build(&page);
        seen[padding(&built, 0)] = true;
        run.accept("0 or 4 padding bytes in a file-space directory", &built.bytes);
    }
    assert!(seen[0] && seen[4], "both numbers of padding bytes in a file-space directory");
}

/// Every order of the numbers.
fn orders(numbers: &[usize]) -> Vec<Vec<usize>> {
    if numbers.is_empty() {
        return vec![Vec::new()];
    }
    let mut all = Vec::new();
    for (at, first) in numbers.iter().enumerate() {
        let mut rest = numbers.to_vec();
        rest.remove(at);
        for mut order in orders(&rest) {
            order.insert(0, *first);
            all.push(order);
        }
    }
    all
}

fn lists_in_any_order(run: &mut Run) {
    let mut page = Page::plain();
    page.insert(0, Body::MetadataDirectory(Vec::new()));
    page.insert(0, Body::FileSpaceDirectory(Vec::new()));
    for (id, length) in [(4, 16), (3, 16), (2, 32), (1, 24)] {
        page.insert(0, Body::Metadata(Metadata::new(b"m", id)));
        page.insert(4.min(page.records.len()), Body::Free(length));
    }
    let metadata = page.of_type(chain::METADATA);
    let free = page.of_type(chain::FREE);
    for (metadata, free) in orders(&metadata).into_iter().zip(orders(&free).into_iter().rev()) {
        let mut page = page.clone();
        for record in &mut page.records {
            match &mut record.body {
                Body::MetadataDirectory(listed) => listed.clone_from(&metadata),
                Body::FileSpaceDirectory(listed) => listed.clone_from(&free),
                _ => (),
            }
        }
        run.accept("lists in any order", &bytes_of(&page));
    }
}

/// One record of each type, in every order.
fn records_in_any_order(run: &mut Run) {
    for order in orders(&[0, 1, 2, 3, 4, 5]) {
        let place = |record_type: usize| order.iter().position(|other| *other == record_type);
        let mut page = Page::plain();
        page.records.clear();
        for record_type in &order {
            let body = match record_type {
                0 => Body::Free(24),
                1 => Body::Metadata(Metadata::new(b"m", 1)),
                2 => Body::Tile(Tile { index: 0, contents: vec![vec![7; 16]] }),
                3 => Body::FileSpaceDirectory(place(0).into_iter().collect()),
                4 => Body::MetadataDirectory(place(1).into_iter().collect()),
                _ => Body::TileDirectory(TileDirectory::compact(0, 0, 1, 1)),
            };
            page.records.push(Record::new(body));
        }
        run.accept("records in any order", &bytes_of(&page));
    }
}
