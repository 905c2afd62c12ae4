//! Pages at random, as their descriptions have them; and what lists say of a page, held to the other
//! functions of the library.

use gvrs_tests::build::{build, Built};
use gvrs_tests::library::{self, list_items_into, DIRECTORY};
use gvrs_tests::page::{Body, Metadata, Page, Record, FLOAT};
use gvrs_tests::prng::Prng;
use gvrs_tests::random_page::{name, random_page};
use gvrs_tests::second::cells::{Spot, NO_COMPRESSOR};
use gvrs_tests::second::elements::{ABSENT, FOUND};
use gvrs_tests::second::says::{List, LISTS};

use super::ask::is_the_list;
use super::described::items_of;
use crate::reads::ask::Asked;
use crate::run::Run;

const SORT: &str = "lists of pages and their descriptions";
const FIND_SORT: &str = "metadata records by name and ID";

const NONE: [&str; 3] = ["no tile record", "no metadata record", "no method"];
const SEVERAL: [&str; 3] = ["several tile records", "several metadata records", "several methods"];
const NOT_IN_ORDER: &str = "tile records that do not ascend in the file";
const PACKED: &str = "a tile's mask: set exactly where its cell is 11 without an index";
const SERVES: &str =
    "a tile's index: one by which its first packed element is read, or found malformed";
const ONLY_FLOATS: &str = "only Floats are packed: 256";
const TEXTS: &str = "names that are identifiers, descriptions in UTF-8, all in the file";
const OWN: &str = "every metadata record is found by its own name and ID";
const OTHER_ID: &str = "a name with another ID: 33";
const OTHER_NAME: &str = "an ID with a name that differs a little: 33";
const ADDRESSES: &str = "lists at eight addresses in memory";

pub fn section(run: &mut Run, random: &mut Prng) {
    for thing in NONE.into_iter().chain(SEVERAL) {
        run.said.want(thing);
    }
    for thing in [NOT_IN_ORDER, PACKED, SERVES, ONLY_FLOATS, TEXTS] {
        run.said.want(thing);
    }
    for thing in [OWN, OTHER_ID, OTHER_NAME, ADDRESSES] {
        run.said.want(thing);
    }
    for _ in 0..run.times(700) {
        let page = random_page(random);
        of_page(run, SORT, &page, random);
        note(run, &page);
    }
}

/// The lists of a page and all its metadata records, as the description has them. True if they come.
pub fn of_page(run: &mut Run, sort: &str, page: &Page, random: &mut Prng) -> bool {
    let built = build(page);
    let asked = Asked::new(&built.bytes);
    let mut all = true;
    for list in LISTS {
        all &= run.list_is(sort, &asked, list, &Ok(items_of(page, &built, list)));
    }
    all &= by_own_name(run, &asked, page);
    if let Some(metadata) = random.pick_any(&metadata_of(page)) {
        nearly(run, &asked, page, metadata, random);
    }
    tiles_are_so(run, page, &built);
    texts_are_so(run, page, &built);
    if random.one_in(8) {
        at_any_address(run, &asked);
    }
    all
}

fn metadata_in(record: &Record) -> Option<&Metadata> {
    match &record.body {
        Body::Metadata(metadata) => Some(metadata),
        _ => None,
    }
}

pub fn metadata_of(page: &Page) -> Vec<&Metadata> {
    page.records.iter().filter_map(metadata_in).collect()
}

fn by_own_name(run: &mut Run, asked: &Asked, page: &Page) -> bool {
    let mut all = true;
    for (number, metadata) in (0..).zip(metadata_of(page)) {
        let key = (&metadata.name[..], metadata.id);
        let found = run.find_is(FIND_SORT, asked, key, (FOUND, number));
        all &= found;
        if found {
            run.said.reached(OWN);
        }
    }
    all
}

/// The name with another ID, and other names with the ID.
fn nearly(run: &mut Run, asked: &Asked, page: &Page, metadata: &Metadata, random: &mut Prng) {
    let Metadata { name: own, id, .. } = metadata;
    let there = |name: &[u8], id: u32| {
        let mut all = metadata_of(page).into_iter();
        all.position(|other| other.name == name && other.id == id)
    };
    let answer = |number: Option<usize>| number.map_or((ABSENT, 0), |at| (FOUND, at as u64));
    for other in [id ^ 1, id ^ (1 << 31), id.wrapping_add(1), random.integer()] {
        let expected = answer(there(own, other));
        if run.find_is(FIND_SORT, asked, (own, other), expected) && expected.0 == ABSENT {
            run.said.reached(OTHER_ID);
        }
    }
    let mut turned = own.clone();
    turned[random.below(own.len())] ^= 0x20;
    let (shorter, longer) = (own[..own.len() - 1].to_vec(), [own, &b"a"[..]].concat());
    let others = [turned, shorter, longer, Vec::new(), name(random), random.bytes(40)];
    for other in others {
        let expected = answer(there(&other, *id));
        if run.find_is(FIND_SORT, asked, (&other, *id), expected) && expected.0 == ABSENT {
            run.said.reached(OTHER_NAME);
        }
    }
}

/// The library's whole list, with room for just all of it.
fn from_library(file: &[u8], list: List) -> Vec<u64> {
    let mut out = [0; 2];
    list_items_into(file, list, 0, &mut [], &mut out);
    let mut numbers = vec![0; list.size() * out[1] as usize];
    list_items_into(file, list, 0, &mut numbers, &mut out);
    numbers
}

/// The library's own reads of the first cell of each tile that it says: 11 without an index where the
/// bit is set; with the index that it says the first such element that is no Float is not 11.
fn tiles_are_so(run: &mut Run, page: &Page, built: &Built) {
    let file = &built.bytes[..];
    for tile in from_library(file, List::Tiles).chunks(List::Tiles.size()) {
        let [index, _, mask, compressor] = [0, 1, 2, 3].map(|at| tile[at]);
        let across = page.tiles_across() as u64;
        let row = index / across * u64::from(page.tile_rows);
        let column = index % across * u64::from(page.tile_columns);
        let spot = |element: usize| Spot { row, column, element: element as u64 };
        let set = |element: &usize| mask >> element & 1 == 1;
        let elements = 0..page.elements.len();
        let mut right = mask >> page.elements.len() == 0;
        for element in elements.clone() {
            let (number, _) = library::cell(file, spot(element), DIRECTORY);
            right &= (number == 11) == set(&element);
        }
        if right {
            run.said.reached(PACKED);
        } else {
            run.fault(&format!("{PACKED}: tile {index}, mask {mask:b}"), file);
        }
        let is_float = |element: &usize| page.elements[*element].type_code == FLOAT;
        let serves = match elements.filter(set).find(|element| !is_float(element)) {
            Some(element) => {
                library::cell_with(file, spot(element), DIRECTORY, compressor as u32).0 != 11
            }
            None => compressor == u64::from(NO_COMPRESSOR),
        };
        let thing = if compressor == u64::from(NO_COMPRESSOR) { ONLY_FLOATS } else { SERVES };
        if !serves {
            run.fault(&format!("{thing}: tile {index}, {mask:b}, {compressor}"), file);
        } else if mask != 0 {
            run.said.reached(thing);
        }
    }
}

/// The bytes at the places that the library gives are those of the description.
fn texts_are_so(run: &mut Run, page: &Page, built: &Built) {
    let file = &built.bytes[..];
    let at = |place: u64, length: u64| file.get(place as usize..(place + length) as usize);
    let items = from_library(file, List::Metadata);
    for (item, metadata) in items.chunks(List::Metadata.size()).zip(metadata_of(page)) {
        let (name, content, description) =
            (at(item[1], item[2]), at(item[5], item[6]), at(item[7], item[8]));
        let right = name == Some(&metadata.name)
            && content == Some(&metadata.content)
            && description == Some(&metadata.description)
            && name.is_some_and(|name| library::is_identifier(name) == 1)
            && description.is_some_and(|text| library::is_utf8(text) == 1);
        if right {
            run.said.reached(TEXTS);
        } else {
            run.fault(&format!("{TEXTS}: {item:?}"), file);
        }
    }
    let items = from_library(file, List::Methods);
    for (item, method) in items.chunks(List::Methods.size()).zip(&page.methods) {
        if at(item[0], item[1]) != Some(method) {
            run.fault(&format!("the name of a method: {item:?}"), file);
        }
    }
}

/// The answers do not depend on where the file lies in memory, nor on what surrounds it.
fn at_any_address(run: &mut Run, asked: &Asked) {
    let same = (0..8).all(|before| {
        let mut memory = vec![0xff; before];
        memory.extend(asked.file);
        memory.extend([0xff; 16]);
        let moved = &memory[before..before + asked.file.len()];
        LISTS.into_iter().all(|list| is_the_list(moved, &asked.checked.list(list)))
    });
    if same {
        run.said.reached(ADDRESSES);
    } else {
        run.fault("lists: another answer at another address", asked.file);
    }
}

fn note(run: &mut Run, page: &Page) {
    let mut indexes = Vec::new();
    for record in &page.records {
        if let Body::Tile(tile) = &record.body {
            indexes.push(tile.index);
        }
    }
    let counts = [indexes.len(), metadata_of(page).len(), page.methods.len()];
    for (number, count) in counts.into_iter().enumerate() {
        match count {
            0 => run.said.reached(NONE[number]),
            1 => (),
            _ => run.said.reached(SEVERAL[number]),
        }
    }
    if !indexes.is_sorted() {
        run.said.reached(NOT_IN_ORDER);
    }
}
