//! Rules 49 to 75.

use gvrs_tests::build::{build, make_checksums_good, Built};
use gvrs_tests::page::{Body, Page, Record, TileDirectory};
use gvrs_tests::second::chain;

use super::broken::{ends, Breaker};
use super::pages::{
    FILE_SPACE_DIRECTORY, FREE, METADATA, METADATA_DIRECTORY, TILES, TILE_DIRECTORY,
};

const NEGATIVE: u64 = 0x8000_0000;

pub fn section(breaker: &mut Breaker) {
    references(breaker);
    others(breaker);
    rectangle(breaker);
    surplus(breaker);
    tile_references(breaker);
    narrow_rectangle(breaker);
    counts(breaker);
    entries(breaker);
    no_directory(breaker);
    twins(breaker);
}

/// Rules 49, 60 and 68: the content of another record, and of none.
fn references(breaker: &mut Breaker) {
    let references = [
        (49, "tile directory reference"),
        (60, "metadata reference"),
        (68, "file-space reference"),
    ];
    let other = breaker.good.starts[0] as u64 + 8;
    for (rule, name) in references {
        let field = breaker.good.only(name);
        let own = breaker.good.value(&field);
        for value in [own + 8, own | 1 << 32, u64::MAX, other] {
            breaker.set_there(rule, 0, field, value);
        }
    }
    let field = breaker.good.only("tile directory reference");
    breaker.set_there(49, 0, field, 0);
}

/// Rules 50, 61 and 69: another directory before the one that is referred to, between two that are
/// not, and behind it.
fn others(breaker: &mut Breaker) {
    let types = [
        (50, chain::TILE_DIRECTORY, "tile directory reference"),
        (61, chain::METADATA_DIRECTORY, "metadata reference"),
        (69, chain::FILE_SPACE_DIRECTORY, "file-space reference"),
    ];
    for (rule, record_type, name) in types {
        let mut page = breaker.page.clone();
        page.insert(0, Body::Raw(record_type, vec![0; 8]));
        let mut built = build(&page);
        let right = referred(&page, &built, record_type);
        let field = built.only(name);
        built.set(&field, right);
        make_checksums_good(&mut built.bytes);
        let start = built.starts[0] as u64;
        breaker.file((rule, 0, start), built.bytes);
        let last = breaker.page.records.len();
        let other = || Record::new(Body::Raw(record_type, vec![0; 8]));
        let behind = |page: &mut Page| page.records.push(other());
        breaker.change(rule, behind, move |built| [1, built.starts[last]]);
        let two_behind = |page: &mut Page| page.records.extend([other(), other()]);
        breaker.change_alone(rule, two_behind, move |built| [1, built.starts[last]]);
    }
}

/// The content of the last record of a type.
fn referred(page: &Page, built: &Built, record_type: u8) -> u64 {
    let last = page.of_type(record_type).pop();
    last.map_or(0, |number| built.starts[number] as u64 + 8)
}

/// Rules 51 to 56.
fn rectangle(breaker: &mut Breaker) {
    let format = breaker.good.only("directory format");
    breaker.set_there(51, 0, format, 1);
    let standard = breaker.good.only("standard references");
    breaker.set_there(52, 0, standard, 2);
    breaker.set_there(52, 0, standard, 255);
    let names = [("row0", "directory rows"), ("column0", "directory columns")];
    for (number, (start, side)) in names.into_iter().enumerate() {
        let [start, side] = [start, side].map(|name| breaker.good.only(name));
        breaker.set_there(53, number, start, NEGATIVE);
        breaker.set_there(54, number, side, NEGATIVE | 3);
        breaker.set_there(55, number, side, 4);
        breaker.set_there(55, number, side, 0x7fff_ffff);
        breaker.set((55, number as u64, side.at as u64), start, 1);
    }
    if breaker.good.value(&standard) == 0 {
        let directory = breaker.good.starts[TILE_DIRECTORY] as u64;
        breaker.set((56, 0, directory), standard, 1);
    }
}

/// Rules 57, 64 and 73.
fn surplus(breaker: &mut Breaker) {
    let directories = [(57, TILE_DIRECTORY), (64, METADATA_DIRECTORY), (73, FILE_SPACE_DIRECTORY)];
    for (rule, record) in directories {
        let change = |page: &mut Page| page.records[record].surplus = 8;
        breaker.change(rule, change, move |built| [0, built.starts[record]]);
        let change = |page: &mut Page| page.records[record].surplus = 64;
        breaker.change_alone(rule, change, move |built| [0, built.starts[record]]);
    }
}

/// Rules 58 and 59, by references that are changed.
fn tile_references(breaker: &mut Breaker) {
    let references = breaker.good.named("tile reference");
    let elsewhere = breaker.good.value(&references[TILES[1].1 as usize]);
    for (record, index) in TILES {
        let field = references[index as usize];
        let start = breaker.good.starts[record] as u64;
        let own = breaker.good.value(&field);
        for value in [0, own + 1, own ^ 0x4000_0000] {
            breaker.set((58, u64::from(index), start), field, value);
        }
    }
    let absent: Vec<usize> =
        (0..9).filter(|at| TILES.iter().all(|(_, index)| *index as usize != *at)).collect();
    for at in ends(absent.len()) {
        for value in [1, elsewhere, 0xffff_ffff] {
            breaker.set_there(59, absent[at], references[absent[at]], value);
        }
    }
}

/// Rule 58, where the rectangle has not the tile.
fn narrow_rectangle(breaker: &mut Breaker) {
    let rectangles = [
        (TileDirectory::compact(1, 0, 2, 3), TILES[0]),
        (TileDirectory::compact(0, 0, 1, 3), TILES[1]),
        (TileDirectory::compact(0, 0, 3, 2), TILES[2]),
    ];
    for (directory, (record, index)) in rectangles {
        let change = |page: &mut Page| {
            page.records[TILE_DIRECTORY].body = Body::TileDirectory(directory.clone());
        };
        breaker.change_alone(58, change, move |built| [index as usize, built.starts[record]]);
    }
}

/// Rules 62, 63 and 70 to 72: counts that are changed.
fn counts(breaker: &mut Breaker) {
    let count = breaker.good.only("metadata count");
    let directory = breaker.good.starts[METADATA_DIRECTORY] as u64;
    breaker.set_there(62, 0, count, NEGATIVE | 3);
    breaker.set((63, 0, directory), count, 0x7fff_ffff);
    let count = breaker.good.only("free count");
    let directory = breaker.good.starts[FILE_SPACE_DIRECTORY] as u64;
    breaker.set_there(70, 0, count, 0);
    breaker.set_there(71, 0, count, NEGATIVE | 3);
    let own = breaker.good.value(&count);
    for value in [own + 2, 1000, 0x7fff_ffff] {
        breaker.set((72, 0, directory), count, value);
    }
}

/// Rules 65, 66, 74 and 75: entries too few, too many, of another record and twice.
fn entries(breaker: &mut Breaker) {
    let lists = [
        (65, METADATA_DIRECTORY, METADATA, "metadata count", "listed ID"),
        (74, FILE_SPACE_DIRECTORY, FREE, "free count", "free size"),
    ];
    for (rule, directory, listed, count, field) in lists {
        let of =
            |number: usize| -> Vec<usize> { listed.into_iter().cycle().take(number).collect() };
        for number in [1, 2] {
            let change = |page: &mut Page| list(page, directory, &of(number));
            breaker.change_alone(rule, change, move |built| [0, built.only(count).at]);
        }
        let change = |page: &mut Page| list(page, directory, &of(4));
        breaker.change(rule, change, move |built| [0, built.only(count).at]);
        for (number, record) in listed.into_iter().enumerate() {
            let entry = breaker.good.named(field)[number];
            let start = breaker.good.starts[record] as u64;
            let other = breaker.good.value(&entry) + 64;
            breaker.set((rule + 1, number as u64, start), entry, other);
            let mut twice = listed.to_vec();
            twice[(number + 1) % 3] = record;
            let change = |page: &mut Page| list(page, directory, &twice);
            let first = number.min((number + 1) % 3);
            let at = listed[first];
            breaker.change_alone(rule + 1, change, move |built| [first, built.starts[at]]);
        }
    }
}

fn list(page: &mut Page, directory: usize, entries: &[usize]) {
    if let Some(list) = page.records[directory].list() {
        *list = entries.to_vec();
    }
}

/// Rules 65 and 74, where there is no directory: position 0.
fn no_directory(breaker: &mut Breaker) {
    for (rule, directory) in [(65, METADATA_DIRECTORY), (74, FILE_SPACE_DIRECTORY)] {
        breaker.change_alone(rule, |page: &mut Page| page.remove(directory), |_| [0, 0]);
    }
}

/// Rule 67: each pair of metadata records.
fn twins(breaker: &mut Breaker) {
    for (one, other) in [(0, 1), (0, 2), (1, 2)] {
        let change = |page: &mut Page| {
            page.records[METADATA[other]].body = page.records[METADATA[one]].body.clone();
        };
        breaker.change(67, change, |built| [0, built.only("metadata count").at]);
    }
}
