//! Files to measure, each of one shape that is costly in its own way.

use gvrs_tests::build::bytes_of;
use gvrs_tests::page::{
    Body, Element, Metadata, Page, Record, Tile, TileDirectory, INTEGER, SHORT,
};

/// The longest file (document 01, house ceilings).
pub const CEILING: usize = 16 * MEBIBYTE;
pub const MEBIBYTE: usize = 1 << 20;

/// Fifteen tiles of 1 MiB, uncompressed, and one compressed tile that fills the file.
pub fn few_large_tiles(checksums: bool) -> Vec<u8> {
    large_tiles(INTEGER, 64, checksums)
}

/// The same of Shorts.
pub fn few_large_tiles_of_shorts() -> Vec<u8> {
    large_tiles(SHORT, 128, true)
}

fn large_tiles(type_code: u8, columns: u32, checksums: bool) -> Vec<u8> {
    let mut page = Page::of_sides([65_536, columns], [4096, columns]);
    page.elements = vec![Element::new(type_code, b"z")];
    page.checksums = checksums;
    for index in 0..15 {
        page.records.push(tile(index, MEBIBYTE));
    }
    let left = CEILING - bytes_of(&page).len();
    page.records.push(tile(15, left - 24));
    bytes_of(&page)
}

/// As many tiles as there may be, 65,536, of 56 Integer cells each.
pub fn many_small_tiles(checksums: bool) -> Vec<u8> {
    small_tiles(256, checksums)
}

/// So many rows of 256 such tiles.
pub fn small_tiles(rows: u64, checksums: bool) -> Vec<u8> {
    let rows = rows as u32;
    let mut page = Page::of_sides([rows * 7, 256 * 8], [7, 8]);
    page.checksums = checksums;
    for index in 0..rows * 256 {
        page.records.push(tile(index, 224));
    }
    bytes_of(&page)
}

/// The same tiles with the last index first in the file.
pub fn tiles_in_reverse() -> Vec<u8> {
    let mut page = Page::of_sides([256 * 7, 256 * 8], [7, 8]);
    for index in (0..65_536).rev() {
        page.records.push(tile(index, 224));
    }
    bytes_of(&page)
}

/// As many tiles as there may be, of one cell of so many Short elements.
pub fn tiles_of_one_cell(elements: usize) -> Vec<u8> {
    let mut page = Page::of_sides([256, 256], [1, 1]);
    let names = (0..elements).map(|e| format!("e{e}"));
    page.elements = names.map(|name| Element::new(SHORT, name.as_bytes())).collect();
    for index in 0..65_536u32 {
        let cell = (index as u16).to_le_bytes().to_vec();
        let tile = Tile { index, contents: vec![cell; elements] };
        page.records.push(Record::new(Body::Tile(tile)));
    }
    bytes_of(&page)
}

/// 4,000 metadata records of 4,000 bytes, listed in file order.
pub fn many_metadata(checksums: bool) -> Vec<u8> {
    let mut page = Page::plain();
    page.checksums = checksums;
    let first = page.records.len();
    for id in 0..4_000 {
        let mut metadata = Metadata::new(b"Deed", id);
        metadata.content = vec![0x5a; 4_000];
        page.records.push(Record::new(Body::Metadata(metadata)));
    }
    let listed = (first..page.records.len()).collect();
    page.records.push(Record::new(Body::MetadataDirectory(listed)));
    bytes_of(&page)
}

/// 256 metadata records, each but the last with a description as long as it can be. The last one's
/// fills the file.
pub fn descriptions(character: &str) -> Vec<u8> {
    let mut page = Page::plain();
    let first = page.records.len();
    for id in 0..255 {
        page.records.push(described(id, character, 65_535));
    }
    page.records.push(described(255, character, 0));
    let listed = (first..page.records.len()).collect();
    page.records.push(Record::new(Body::MetadataDirectory(listed)));
    let left = CEILING - bytes_of(&page).len();
    page.records[first + 255] = described(255, character, left);
    bytes_of(&page)
}

/// A metadata record with a description of so many bytes: the character again and again, and letters
/// where it would be cut.
fn described(id: u32, character: &str, length: usize) -> Record {
    let mut metadata = Metadata::new(b"Deed", id);
    metadata.description = character.repeat(length / character.len()).into_bytes();
    metadata.description.resize(length, b'e');
    Record::new(Body::Metadata(metadata))
}

/// How many free records of 16 bytes fit, each with an entry of 12 bytes.
pub fn free_records(length: usize) -> usize {
    (length - 1024) / 28
}

/// So many, listed first one first.
pub fn free_in_order(records: usize) -> Vec<u8> {
    free_listed(records, |listed| listed)
}

/// So many, listed last one first.
pub fn free_in_reverse(records: usize) -> Vec<u8> {
    free_listed(records, |listed| listed.into_iter().rev().collect())
}

fn free_listed(records: usize, order: impl Fn(Vec<usize>) -> Vec<usize>) -> Vec<u8> {
    let mut page = Page::plain();
    let first = page.records.len();
    for _ in 0..records {
        page.records.push(Record::new(Body::Free(16)));
    }
    let listed = order((first..page.records.len()).collect());
    page.records.push(Record::new(Body::FileSpaceDirectory(listed)));
    bytes_of(&page)
}

/// How many metadata records of 32 bytes fit, each with an entry of 16 bytes.
pub fn metadata_records(length: usize) -> usize {
    (length - 1024) / 48
}

/// So many, each with a key of its own, listed last one first.
pub fn metadata_in_reverse(records: usize) -> Vec<u8> {
    let mut page = Page::plain();
    let first = page.records.len();
    for id in 0..records {
        page.records.push(Record::new(Body::Metadata(Metadata::new(b"m", id as u32))));
    }
    let listed = (first..page.records.len()).rev().collect();
    page.records.push(Record::new(Body::MetadataDirectory(listed)));
    bytes_of(&page)
}

/// A header that empty names of compression methods fill.
pub fn many_methods() -> Vec<u8> {
    let mut page = Page::plain();
    page.methods = vec![Vec::new(); 8_000_000];
    bytes_of(&page)
}

/// No tile record, and a directory that covers 65,536 tiles.
pub fn wide_directory() -> Vec<u8> {
    let mut page = Page::of_sides([256, 256], [1, 1]);
    let directory = TileDirectory { standard: 1, ..TileDirectory::compact(0, 0, 256, 256) };
    page.records[0].body = Body::TileDirectory(directory);
    bytes_of(&page)
}

/// A tile record of one element with so many bytes.
pub fn tile(index: u32, length: usize) -> Record {
    let content = (0..length).map(|at| (at as u32 ^ index) as u8).collect();
    Record::new(Body::Tile(Tile { index, contents: vec![content] }))
}
