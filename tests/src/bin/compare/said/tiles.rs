//! Stored tiles: their order in the file, which of their elements are packed, and by what.

use gvrs_tests::build::build;
use gvrs_tests::page::{Body, Element, Page, Record, Tile, TileDirectory, FLOAT};
use gvrs_tests::prng::Prng;
use gvrs_tests::second::says::List;

use super::described::packed;
use super::made::of_page;
use crate::reads::ask::Asked;
use crate::run::Run;

const SORT: &str = "tiles in falling order, mixed packing";

const EVERY_MASK: &str = "every mask of four elements, each order of the types";
const SIXTEEN: &str = "16 elements, mixed packing";
const LAST_OF_SIXTEEN: &str = "of 16 elements only the last is packed";
const FLOAT_FIRST: &str = "a Float is packed before another element: the other's index";
const SECOND_INDEX: &str = "the index of an element behind one that is stored whole";
const INDEXES: [&str; 2] = ["index 0", "index 255"];
const ONE_LESS: &str = "L one less than U";
const ONE_BYTE: &str = "L of 1, U of 2";
const PART: &str = "a directory that lists a part of the grid";
const ENDS: &str = "the first tile and the last of the grid, in falling order";

pub fn section(run: &mut Run, random: &mut Prng) {
    for thing in [EVERY_MASK, SIXTEEN, LAST_OF_SIXTEEN, FLOAT_FIRST, SECOND_INDEX] {
        run.said.want(thing);
    }
    for thing in INDEXES.into_iter().chain([ONE_LESS, ONE_BYTE, PART, ENDS]) {
        run.said.want(thing);
    }
    let orders = orders();
    let step = if run.small { 8 } else { 1 };
    for types in orders.iter().step_by(step) {
        every_mask(run, types, random);
    }
    for _ in 0..run.times(150) {
        sixteen(run, random);
    }
    ends(run, random);
}

/// The four types in every order.
fn orders() -> Vec<[u8; 4]> {
    let all = (0..256).map(|number: u32| [0, 2, 4, 6].map(|shift| (number >> shift & 3) as u8));
    all.filter(|types| (0..4).all(|code| types.contains(&code))).collect()
}

fn of_types(types: &[u8]) -> Vec<Element> {
    let element = |(number, code): (u8, &u8)| Element::new(*code, &[b'a' + number]);
    (0..).zip(types).map(element).collect()
}

/// Bytes of an element: whole, or fewer. Their first is the compressor index.
fn content(uncompressed: usize, packed: bool, random: &mut Prng) -> Vec<u8> {
    let length = match (packed, random.below(3)) {
        (false, _) => uncompressed,
        (true, 0) => 1,
        (true, 1) => uncompressed - 1,
        (true, _) => random.between(1, uncompressed - 1),
    };
    let mut bytes = random.bytes(length);
    bytes[0] = random.pick(&[0, 1, 2, 127, 128, 254, 255, bytes[0]]);
    bytes
}

fn tile(page: &Page, index: u32, mask: u32, random: &mut Prng) -> Tile {
    let content =
        |element| content(page.uncompressed_size(element), mask >> element & 1 == 1, random);
    Tile { index, contents: (0..page.elements.len()).map(content).collect() }
}

/// Sixteen tiles, tile m with mask m, the last of them first in the file.
fn every_mask(run: &mut Run, types: &[u8; 4], random: &mut Prng) {
    let sides = random.pick(&[[1, 1], [1, 3], [2, 2], [3, 2]]);
    let mut page = Page::of_sides(sides.map(|side| 4 * side), sides);
    page.elements = of_types(types);
    for index in 0..16 {
        let tile = tile(&page, index, index, random);
        page.insert(0, Body::Tile(tile));
    }
    if of_page(run, SORT, &page, random) {
        run.said.reached(EVERY_MASK);
        note(run, &page);
    }
}

/// Elements of each type, tiles of any mask in falling order.
fn sixteen(run: &mut Run, random: &mut Prng) {
    let types: Vec<u8> = (0..16).map(|_| random.below(4) as u8).collect();
    let mut page = Page::of_sides([3, 4], [1, random.between(1, 2) as u32]);
    page.elements = of_types(&types);
    page.list_whole_grid();
    for index in 0..page.tile_count() as u32 {
        let mask = match random.below(6) {
            0 => 0,
            1 => 0xffff,
            2 => 1 << random.below(16),
            3 => 1 << 15,
            4 => 0x7fff,
            _ => random.integer() & 0xffff,
        };
        if !random.one_in(3) {
            let tile = tile(&page, index, mask, random);
            page.insert(0, Body::Tile(tile));
        }
    }
    if of_page(run, SORT, &page, random) {
        run.said.reached(SIXTEEN);
        note(run, &page);
    }
}

fn note(run: &mut Run, page: &Page) {
    for record in &page.records {
        let Body::Tile(Tile { contents, .. }) = &record.body else {
            continue;
        };
        let packed = packed(page, contents);
        let first = packed.iter().find(|element| page.elements[**element].type_code != FLOAT);
        let lengths =
            |element: &usize| (contents[*element].len(), page.uncompressed_size(*element));
        let index = first.map(|element| contents[*element][0]);
        let true_of_it = [
            (LAST_OF_SIXTEEN, packed == [15]),
            (FLOAT_FIRST, first.is_some() && first != packed.first()),
            (SECOND_INDEX, first.is_some_and(|element| !packed.contains(&0) && *element > 0)),
            (INDEXES[0], index == Some(0)),
            (INDEXES[1], index == Some(255)),
            (ONE_LESS, packed.iter().map(lengths).any(|(length, whole)| length + 1 == whole)),
            (ONE_BYTE, packed.iter().map(lengths).any(|lengths| lengths == (1, 2))),
        ];
        for (thing, _) in true_of_it.iter().filter(|(_, holds)| *holds) {
            run.said.reached(thing);
        }
    }
}

/// Both forms of the directory, of the whole grid and of a part of it.
fn ends(run: &mut Run, random: &mut Prng) {
    for standard in [0, 1] {
        let mut page = Page::of_sides([7, 5], [1, 1]);
        for index in [0, 17, 34] {
            let tile = tile(&page, index, 0, random);
            page.insert(0, Body::Tile(tile));
        }
        set_directory(&mut page, TileDirectory { standard, ..TileDirectory::compact(0, 0, 7, 5) });
        if of_page(run, SORT, &page, random) {
            run.said.reached(ENDS);
        }
        let mut page = Page::of_sides([7, 5], [1, 1]);
        for index in [33, 23, 22, 27] {
            let tile = tile(&page, index, 1, random);
            page.records.push(Record::new(Body::Tile(tile)));
        }
        set_directory(&mut page, TileDirectory { standard, ..TileDirectory::compact(4, 2, 3, 2) });
        if of_page(run, SORT, &page, random) {
            run.said.reached(PART);
        }
        let built = build(&page);
        let said = run.list(SORT, &Asked::new(&built.bytes), List::Tiles);
        let indexes = said.and_then(|said| said.numbers.ok());
        let ascending = [22, 23, 27, 33];
        if indexes.is_some_and(|numbers| !numbers.iter().step_by(4).eq(&ascending)) {
            run.fault(&format!("{SORT}: not {ascending:?}"), &built.bytes);
        }
    }
}

fn set_directory(page: &mut Page, directory: TileDirectory) {
    for record in &mut page.records {
        if let Body::TileDirectory(known) = &mut record.body {
            *known = directory.clone();
        }
    }
}
