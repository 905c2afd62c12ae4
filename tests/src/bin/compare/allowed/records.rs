//! What records behind the header may be.

use gvrs_tests::build::{build, bytes_of, Built};
use gvrs_tests::page::{Body, Element, Metadata, Page, Tile, FLOAT, INTEGER, INTEGER_CODED, SHORT};
use gvrs_tests::prng::Prng;

use super::UNDERSCORES_INSIDE;
use crate::run::Run;

pub fn section(run: &mut Run, random: &mut Prng) {
    record_of_16(run);
    content_lengths(run, random);
    mixed_contents(run, random);
    metadata_values(run);
    metadata_names(run);
    metadata_padding(run);
    last_tile(run);
    tile_larger_than_grid(run);
    no_tile_at_all(run);
}

fn record_of_16(run: &mut Run) {
    let mut page = Page::plain();
    page.insert(0, Body::Free(16));
    page.insert(1, Body::FileSpaceDirectory(vec![0]));
    page.insert(0, Body::MetadataDirectory(Vec::new()));
    run.accept("a record of 16 bytes", &bytes_of(&page));
}

/// L of 1, 2, 3, 4, U - 1 and U, for each type and for tiles of odd and even cells.
fn content_lengths(run: &mut Run, random: &mut Prng) {
    for type_code in [INTEGER, INTEGER_CODED, FLOAT, SHORT] {
        for tile in [[1, 1], [1, 2], [3, 3], [2, 5], [4, 4]] {
            let mut page = Page::of_sides([8, 8], tile);
            page.elements = vec![Element::new(type_code, b"z")];
            let uncompressed = page.uncompressed_size(0);
            for length in [1, 2, 3, 4, uncompressed - 1, uncompressed] {
                if length > uncompressed {
                    continue;
                }
                let mut page = page.clone();
                let contents = vec![random.bytes(length)];
                page.insert(1, Body::Tile(Tile { index: 3, contents }));
                run.accept("L from 1 to U", &bytes_of(&page));
            }
        }
    }
}

/// Every mix of whole and compressed in four elements.
fn mixed_contents(run: &mut Run, random: &mut Prng) {
    let mut page = Page::of_sides([3, 3], [3, 3]);
    let types = [SHORT, INTEGER, FLOAT, SHORT];
    let names: [&[u8]; 4] = [b"a", b"b", b"c", b"d"];
    page.elements = types.iter().zip(names).map(|(kind, name)| Element::new(*kind, name)).collect();
    for mix in 0..16 {
        let mut contents = Vec::new();
        for element in 0..4 {
            let uncompressed = page.uncompressed_size(element);
            let whole = mix >> element & 1 == 1;
            let length = if whole { uncompressed } else { random.between(1, uncompressed - 1) };
            contents.push(random.bytes(length));
        }
        let mut page = page.clone();
        page.insert(0, Body::Tile(Tile { index: 0, contents }));
        run.accept("whole and compressed elements in one tile", &bytes_of(&page));
    }
}

fn with_metadata(records: Vec<Metadata>) -> Built {
    let mut page = Page::plain();
    let count = records.len();
    for metadata in records {
        page.insert(0, Body::Metadata(metadata));
    }
    page.insert(count, Body::MetadataDirectory((0..count).collect()));
    build(&page)
}

fn metadata_values(run: &mut Run) {
    for data_type in 0..=9 {
        let mut metadata = Metadata::new(b"Author", 0);
        metadata.data_type = data_type;
        metadata.content = vec![7; 5];
        run.accept("a data type from 0 to 9", &with_metadata(vec![metadata]).bytes);
    }
    for id in [0, 1, 0x7fff_ffff, 0x8000_0000, 0xffff_ffff] {
        let built = with_metadata(vec![Metadata::new(b"Author", id)]);
        run.accept("a record ID is anything", &built.bytes);
    }
    for length in [0, 1, 70_000, 1_000_000] {
        let mut metadata = Metadata::new(b"Author", 0);
        metadata.content = vec![7; length];
        run.accept("a content length not negative", &with_metadata(vec![metadata]).bytes);
    }
    let mut metadata = Metadata::new(b"Author", 0);
    metadata.description = vec![7; 65_535];
    run.accept("strings of 65,535 bytes", &with_metadata(vec![metadata]).bytes);
}

fn metadata_names(run: &mut Run) {
    for length in 1..=32 {
        let built = with_metadata(vec![Metadata::new(&vec![b'm'; length], 0)]);
        run.accept("metadata names of 1 to 32 bytes", &built.bytes);
    }
    for name in UNDERSCORES_INSIDE {
        let built = with_metadata(vec![Metadata::new(name, 0)]);
        run.accept("a metadata name has underscores inside", &built.bytes);
    }
    let keys: [[(&[u8], u32); 3]; 4] = [
        [(b"Author", 0), (b"Author", 1), (b"Author", 0xffff_ffff)],
        [(b"Author", 7), (b"author", 7), (b"Autho", 7)],
        [(b"z", 0), (b"z_1", 0), (b"z0", 0)],
        [(b"a", 1), (b"b", 1), (b"a", 2)],
    ];
    for records in keys {
        let records = records.iter().map(|(name, id)| Metadata::new(name, *id)).collect();
        let built = with_metadata(records);
        run.accept("keys that differ in name or in ID only", &built.bytes);
    }
}

/// The padding bytes of a record.
fn padding(built: &Built, owner: usize) -> usize {
    built.named_in("padding", owner).first().map_or(0, |field| field.width)
}

fn metadata_padding(run: &mut Run) {
    let mut seen = [false; 8];
    for length in 0..8 {
        let mut metadata = Metadata::new(b"Author", 0);
        metadata.content = vec![7; length];
        let built = with_metadata(vec![metadata]);
        seen[padding(&built, 0)] = true;
        run.accept("0 to 7 padding bytes in a metadata record", &built.bytes);
    }
    assert_eq!(seen, [true; 8], "every number of padding bytes in a metadata record");
}

fn last_tile(run: &mut Run) {
    let mut page = Page::of_sides([5, 7], [2, 3]);
    page.insert(0, Body::Tile(Tile { index: 8, contents: vec![vec![7; 24]] }));
    run.accept("the last tile index", &bytes_of(&page));
}

fn tile_larger_than_grid(run: &mut Run) {
    for tile in [[5, 5], [4, 64], [4096, 1], [1, 4096]] {
        let mut page = Page::of_sides([3, 3], tile);
        page.insert(0, Body::Tile(Tile { index: 0, contents: vec![vec![7; 3]] }));
        run.accept("a tile larger than the grid", &bytes_of(&page));
    }
}

fn no_tile_at_all(run: &mut Run) {
    run.accept("no tile record at all", &bytes_of(&Page::plain()));
}
