//! Descriptions at random, each of a file that the check accepts.

use crate::page::{
    Body, Element, Filler, Metadata, Page, Record, Tile, TileDirectory, INTEGER_CODED,
};
use crate::prng::Prng;
use crate::second::chain;

/// Tile bytes above which tile records are only stored compressed, so that files stay small.
const MOST_STORED_BYTES: usize = 2048;

pub fn random_page(random: &mut Prng) -> Page {
    let mut page = Page::plain();
    page.records.clear();
    unjudged_fields(&mut page, random);
    page.checksums = !random.one_in(4);
    page.raster_space = random.below(3) as u8;
    page.coordinate_system = random.below(3) as u8;
    page.elements = elements(random);
    sides(&mut page, random);
    page.methods = (0..random.below(4)).map(|_| any_bytes(random)).collect();
    page.label = text(random);
    let directory = tiles(&mut page, random);
    metadata(&mut page, random);
    free_records(&mut page, random);
    random.shuffle(&mut page.records);
    directories(&mut page, directory, random);
    page
}

fn unjudged_fields(page: &mut Page, random: &mut Prng) {
    page.filler = if random.one_in(2) { Filler::Zero } else { Filler::Junk(random.long()) };
    page.uuid.copy_from_slice(&random.bytes(16));
    page.time_modified = if random.one_in(4) { 0 } else { random.long() };
    page.levels = random.long() as u16;
    for bits in &mut page.coordinates {
        *bits = if random.one_in(2) { 0 } else { random.long() };
    }
}

/// A string's length: mostly short, sometimes 0.
fn string_length(random: &mut Prng) -> usize {
    match random.below(8) {
        0..=2 => 0,
        3..=6 => random.between(1, 20),
        _ => random.between(21, 300),
    }
}

/// What no rule looks into: a method's name, or a metadata record's content.
fn any_bytes(random: &mut Prng) -> Vec<u8> {
    let length = string_length(random);
    random.bytes(length)
}

/// A label, a description or a unit, in UTF-8.
fn text(random: &mut Prng) -> Vec<u8> {
    let length = string_length(random);
    text_of(length, random)
}

/// A text of so many bytes, with characters of every length.
pub fn text_of(length: usize, random: &mut Prng) -> Vec<u8> {
    let mut text = String::new();
    while text.len() < length {
        let most = (length - text.len()).min(4);
        text.push(character(random.between(1, most), random));
    }
    text.into_bytes()
}

/// A character that takes so many bytes in UTF-8, often the first or the last of these, next to the
/// surrogates, U+FEFF or a noncharacter.
pub fn character(bytes: usize, random: &mut Prng) -> char {
    let (codes, often): (_, &[usize]) = match bytes {
        1 => ([0, 0x7f], &[0, 0x7f]),
        2 => ([0x80, 0x7ff], &[0x80, 0x7ff]),
        3 => ([0x800, 0xffff], &[0x800, 0xd7ff, 0xe000, 0xfeff, 0xfffe, 0xffff]),
        _ => ([0x1_0000, 0x10_ffff], &[0x1_0000, 0x10_ffff]),
    };
    let [first, last] = codes;
    let any = random.between(first, last);
    let code = if random.one_in(3) { random.pick(often) } else { any };
    // A surrogate is no character; U+FFFD takes three bytes too.
    char::from_u32(code as u32).unwrap_or(char::REPLACEMENT_CHARACTER)
}

fn elements(random: &mut Prng) -> Vec<Element> {
    let count = match random.below(10) {
        0..=5 => random.between(1, 3),
        6..=8 => random.between(4, 8),
        _ => random.between(9, 16),
    };
    let mut elements: Vec<Element> = Vec::new();
    while elements.len() < count {
        let names: Vec<&[u8]> = elements.iter().map(|element| element.name.as_slice()).collect();
        let name = name_near(&names, random);
        if !names.contains(&name.as_slice()) {
            elements.push(element(&name, random));
        }
    }
    elements
}

fn element(name: &[u8], random: &mut Prng) -> Element {
    let mut element = Element::new(random.below(4) as u8, name);
    let block_length = if element.type_code == INTEGER_CODED { 32 } else { 12 };
    element.range_and_fill = random.bytes(block_length);
    element.continuous = random.byte();
    element.label = text(random);
    element.description = text(random);
    element.unit = text(random);
    element
}

/// An identifier; often one that differs little from a name that is taken.
fn name_near(taken: &[&[u8]], random: &mut Prng) -> Vec<u8> {
    let near = random.pick_any(taken).filter(|_| random.one_in(3));
    let Some(near) = near else {
        return name(random);
    };
    let mut name = near.to_vec();
    let at = random.below(name.len());
    match random.below(3) {
        0 if name.len() < 31 => name.extend(b"_1"),
        1 if name.len() > 1 => shorten(&mut name),
        _ if name[at].is_ascii_alphabetic() => name[at] ^= 0x20,
        _ => name[0] = random.pick(b"AZaz"),
    }
    name
}

/// Takes away the last character, and the underscores that are last then.
fn shorten(name: &mut Vec<u8>) {
    name.pop();
    while name.ends_with(b"_") {
        name.pop();
    }
}

/// An identifier of 1 to 32 characters, often with underscores inside.
pub fn name(random: &mut Prng) -> Vec<u8> {
    const LETTERS: &[u8] = b"ABCXYZabcxyz";
    const OTHERS: &[u8] = b"AMZamz0189__";
    const LAST: &[u8] = b"AMZamz0189";
    let length = match random.below(6) {
        0 => 1,
        1 => 32,
        2 => 31,
        _ => random.between(2, 12),
    };
    let mut name = vec![random.pick(LETTERS)];
    while name.len() + 1 < length {
        name.push(random.pick(OTHERS));
    }
    if length > 1 {
        name.push(random.pick(LAST));
    }
    name
}

/// Sides of tile and grid. Mostly small; sometimes a grid of very many tiles or tiles of very many
/// cells.
fn sides(page: &mut Page, random: &mut Prng) {
    let (tile_rows, tile_columns) = match random.below(12) {
        0 => (random.between(1, 4096), 1),
        1 => (1, random.between(1, 4096)),
        2 => (random.between(1, 100), random.between(1, 100)),
        _ => (random.between(1, 6), random.between(1, 6)),
    };
    let (down, across) = match random.below(12) {
        0 => (random.between(1, 65536), 1),
        1 => (1, random.between(1, 65536)),
        2 => (random.between(1, 256), random.between(1, 256)),
        3 => (1, 1),
        _ => (random.between(1, 7), random.between(1, 7)),
    };
    page.tile_rows = tile_rows as u32;
    page.tile_columns = tile_columns as u32;
    page.grid_rows = grid_side(tile_rows, down, random);
    page.grid_columns = grid_side(tile_columns, across, random);
}

/// A grid side of at most 65,536 with so many tiles, or fewer. A tile may be larger than the grid.
fn grid_side(tile_side: usize, tiles: usize, random: &mut Prng) -> u32 {
    let last = random.between(1, tile_side);
    ((tiles - 1) * tile_side + last).min(65536) as u32
}

/// Tile records in any order, and the directory that lists them.
fn tiles(page: &mut Page, random: &mut Prng) -> TileDirectory {
    let rectangle = rectangle(page, random);
    let mut indexes = indexes_inside(page, &rectangle);
    random.shuffle(&mut indexes);
    indexes.truncate(random.between(0, 8));
    for index in indexes {
        let contents = contents(page, random);
        page.records.push(Record::new(Body::Tile(Tile { index, contents })));
    }
    rectangle
}

/// A rectangle of tiles inside the tile grid, of at most some hundred tiles, perhaps empty.
fn rectangle(page: &Page, random: &mut Prng) -> TileDirectory {
    let (row0, rows) = stretch(page.tiles_down(), random);
    let (column0, columns) = stretch(page.tiles_across(), random);
    let mut directory = TileDirectory::compact(row0, column0, rows, columns);
    directory.standard = u8::from(random.one_in(3));
    directory
}

/// A start and a side, the whole way if that is short.
fn stretch(tiles: usize, random: &mut Prng) -> (u32, u32) {
    if random.one_in(12) {
        return (random.between(0, tiles) as u32, 0);
    }
    if tiles <= 16 && random.one_in(2) {
        return (0, tiles as u32);
    }
    let start = random.below(tiles);
    let side = random.between(1, (tiles - start).min(16));
    (start as u32, side as u32)
}

fn indexes_inside(page: &Page, rectangle: &TileDirectory) -> Vec<u32> {
    let across = page.tiles_across() as u32;
    let mut indexes = Vec::new();
    for row in 0..rectangle.rows {
        for column in 0..rectangle.columns {
            indexes.push((rectangle.row0 + row) * across + rectangle.column0 + column);
        }
    }
    indexes
}

/// Each element's bytes, whole or compressed. Compressed bytes may be any, as nothing reads them.
pub fn contents(page: &Page, random: &mut Prng) -> Vec<Vec<u8>> {
    let sizes = (0..page.elements.len()).map(|element| page.uncompressed_size(element));
    let large = sizes.clone().sum::<usize>() > MOST_STORED_BYTES;
    sizes.map(|size| content(size, large, random)).collect()
}

fn content(uncompressed: usize, large: bool, random: &mut Prng) -> Vec<u8> {
    let most = if large { uncompressed.min(64) } else { uncompressed };
    let length = match random.below(6) {
        0..=2 => most,
        3 => 1,
        4 => most - 1,
        _ => random.between(1, most),
    };
    random.bytes(length.max(1))
}

fn metadata(page: &mut Page, random: &mut Prng) {
    let count = if random.one_in(3) { 0 } else { random.between(1, 6) };
    let mut keys: Vec<(Vec<u8>, u32)> = Vec::new();
    while keys.len() < count {
        let names: Vec<&[u8]> = keys.iter().map(|(name, _)| name.as_slice()).collect();
        let name = match random.pick_any(&names) {
            Some(name) if random.one_in(3) => name.to_vec(),
            _ => name_near(&names, random),
        };
        let id = if random.one_in(3) { random.integer() } else { random.below(3) as u32 };
        if !keys.contains(&(name.clone(), id)) {
            keys.push((name, id));
        }
    }
    for (name, id) in keys {
        let data_type = random.below(10) as u8;
        let (content, description) = (any_bytes(random), text(random));
        let metadata = Metadata { name, id, data_type, content, description };
        page.records.push(Record::new(Body::Metadata(metadata)));
    }
}

fn free_records(page: &mut Page, random: &mut Prng) {
    let count = if random.one_in(3) { 0 } else { random.between(1, 5) };
    for _ in 0..count {
        let length = 8 * random.between(2, 9);
        page.records.push(Record::new(Body::Free(length)));
    }
}

/// Puts the directories among the other records, with their lists in any order.
fn directories(page: &mut Page, tile_directory: TileDirectory, random: &mut Prng) {
    put_anywhere(page, Body::TileDirectory(tile_directory), random);
    if !page.of_type(chain::METADATA).is_empty() || random.one_in(4) {
        put_anywhere(page, Body::MetadataDirectory(Vec::new()), random);
    }
    if !page.of_type(chain::FREE).is_empty() {
        put_anywhere(page, Body::FileSpaceDirectory(Vec::new()), random);
    }
    let mut metadata = page.of_type(chain::METADATA);
    let mut free = page.of_type(chain::FREE);
    random.shuffle(&mut metadata);
    random.shuffle(&mut free);
    for record in &mut page.records {
        match &mut record.body {
            Body::MetadataDirectory(listed) => listed.clone_from(&metadata),
            Body::FileSpaceDirectory(listed) => listed.clone_from(&free),
            _ => (),
        }
    }
}

pub fn put_anywhere(page: &mut Page, body: Body, random: &mut Prng) {
    let at = random.between(0, page.records.len());
    page.insert(at, body);
}
