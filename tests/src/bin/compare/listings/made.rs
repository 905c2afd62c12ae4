//! Listings of accepted files, compared with their descriptions too.

use gvrs_tests::build::bytes_of;
use gvrs_tests::page::{Body, Element, Page, Record, Tile, TileDirectory, SHORT};
use gvrs_tests::prng::Prng;
use gvrs_tests::random_page::random_page;

use crate::run::Run;

const SORT: &str = "pages and their descriptions";

const OUT_OF_ORDER: &str = "tile records out of index order";
const IN_ORDER: &str = "two tile records or more, in index order";
const NONE: &str = "none stored";
const ALL: &str = "every tile of two or more stored";
const COMPRESSED: &str = "a compressed content";
const MANY: &str = "over 2,300 tile records out of order, as many as fit";
const DIGITS: &str = "indexes of one to five digits";
const CEILINGS: &str = "a grid of 65,536 by 65,536, of 65,536 tiles";
const ELEMENTS: &str = "1 to 16 elements";

pub fn section(run: &mut Run, random: &mut Prng) {
    for thing in [OUT_OF_ORDER, IN_ORDER, NONE, ALL, COMPRESSED, MANY, DIGITS, CEILINGS, ELEMENTS] {
        run.listings.want(thing);
    }
    for _ in 0..run.times(2000) {
        of_page(run, &random_page(random));
    }
    for _ in 0..run.times(300) {
        small_grid(run, random);
    }
    many(run, random);
    digits(run, random);
    ceilings(run);
    elements(run);
}

/// The tile indexes of a description, in file order.
fn indexes(page: &Page) -> Vec<u32> {
    let index = |record: &Record| match &record.body {
        Body::Tile(tile) => Some(tile.index),
        _ => None,
    };
    page.records.iter().filter_map(index).collect()
}

/// The text by the description: every tile of the grid is asked whether it is stored.
fn described(page: &Page) -> String {
    let stored = indexes(page);
    let mut text = format!("grid {} {}\n", page.grid_rows, page.grid_columns);
    text += &format!("tile {} {}\n", page.tile_rows, page.tile_columns);
    text += &format!("elements {}\n", page.elements.len());
    text += &format!("written {} of {}\n", stored.len(), page.tile_count());
    for tile in (0..page.tile_count() as u32).filter(|tile| stored.contains(tile)) {
        text += &format!("{tile}\n");
    }
    text
}

fn of_page(run: &mut Run, page: &Page) {
    let stored = indexes(page);
    let mut things = vec![if stored.is_sorted() { IN_ORDER } else { OUT_OF_ORDER }];
    match stored.len() {
        0 => things = vec![NONE],
        1 => things.clear(),
        count if count == page.tile_count() => things.push(ALL),
        _ => (),
    }
    if has_compressed(page) {
        things.push(COMPRESSED);
    }
    let (file, text) = (bytes_of(page), described(page));
    match run.listing(SORT, &file) {
        Some(found) if found == text => things.iter().for_each(|thing| run.listings.reached(thing)),
        Some(_) => run.fault("the listing is not that of the description", &file),
        None => (),
    }
}

fn has_compressed(page: &Page) -> bool {
    page.records.iter().any(|record| match &record.body {
        Body::Tile(tile) => (0..tile.contents.len())
            .any(|element| tile.contents[element].len() < page.uncompressed_size(element)),
        _ => false,
    })
}

/// A page of Shorts with these tiles, in this order, among its other records.
fn page_of(grid: [u32; 2], tile: [u32; 2], indexes: &[u32], random: &mut Prng) -> Page {
    let mut page = Page::of_sides(grid, tile);
    page.elements = vec![Element::new(SHORT, b"z")];
    let size = page.uncompressed_size(0);
    for index in indexes {
        let contents = vec![random.bytes(size)];
        page.insert(page.records.len(), Body::Tile(Tile { index: *index, contents }));
    }
    page
}

/// Any number of tiles of a small grid, in any order.
fn small_grid(run: &mut Run, random: &mut Prng) {
    let grid = [random.between(1, 5) as u32, random.between(1, 5) as u32];
    let mut indexes: Vec<u32> = (0..grid[0] * grid[1]).collect();
    if !random.one_in(4) {
        random.shuffle(&mut indexes);
    }
    if !random.one_in(3) {
        indexes.truncate(random.between(0, indexes.len()));
    }
    of_page(run, &page_of(grid, [1, 1], &indexes, random));
}

/// As many tile records as a listed file can hold, last first, and shuffled.
fn many(run: &mut Run, random: &mut Prng) {
    let count = 2327;
    let mut indexes: Vec<u32> = (0..count).rev().collect();
    for _ in 0..2 {
        let page = page_of([1, count], [1, 1], &indexes, random);
        let file = bytes_of(&page);
        if file.len() > 65_536 || file.len() + 24 <= 65_536 {
            run.fault("not as many tile records as fit", &file);
        }
        run.listing_is(SORT, MANY, &file, &described(&page));
        random.shuffle(&mut indexes);
    }
}

/// Tiles around every change of the number of digits, of 65,536 tiles.
fn digits(run: &mut Run, random: &mut Prng) {
    let edges = [0, 1, 9, 10, 11, 99, 100, 101, 999, 1000, 1001, 9999, 10000, 10001, 65534, 65535];
    for _ in 0..run.times(100) {
        let mut stored = Vec::new();
        let start = random.pick(&edges);
        let first = start.min(65_536 - 1000);
        for _ in 0..random.between(1, 300) {
            stored.push((first + random.below(1000)) as u32);
        }
        stored.push(start as u32);
        stored.sort();
        stored.dedup();
        random.shuffle(&mut stored);
        let mut page = page_of([1, 65_536], [1, 1], &stored, random);
        let directory = TileDirectory::compact(0, first as u32, 1, 1000);
        page.records[0].body = Body::TileDirectory(directory);
        run.listing_is(SORT, DIGITS, &bytes_of(&page), &described(&page));
    }
}

/// The last tile alone is stored, and listed by a rectangle of its own.
fn ceilings(run: &mut Run) {
    let mut page = Page::of_sides([65_536, 65_536], [256, 256]);
    page.records[0].body = Body::TileDirectory(TileDirectory::compact(255, 255, 1, 1));
    page.insert(0, Body::Tile(Tile { index: 65_535, contents: vec![vec![7]] }));
    let text = "grid 65536 65536\ntile 256 256\nelements 1\nwritten 1 of 65536\n65535\n";
    run.listing_is(SORT, CEILINGS, &bytes_of(&page), text);
}

fn elements(run: &mut Run) {
    for count in 1..=16 {
        let mut page = Page::of_sides([4, 7], [4, 2]);
        page.elements = (0..count).map(|number| Element::new(SHORT, &[b'a' + number])).collect();
        page.insert(0, Body::Tile(Tile { index: 3, contents: vec![vec![7]; count as usize] }));
        let text = format!("grid 4 7\ntile 4 2\nelements {count}\nwritten 1 of 4\n3\n");
        run.listing_is(SORT, ELEMENTS, &bytes_of(&page), &text);
    }
}
