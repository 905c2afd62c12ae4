//! Writes the files on which the listing program is run.
//!
//!     listing_files FOLDER
//!
//! The output that belongs to NAME.gvrs is stored as `tests/listing/NAME.txt`. Fails where the
//! second implementation lists a file otherwise.

use std::path::Path;
use std::process::ExitCode;
use std::{env, fs, io};

use gvrs_tests::build::{build, bytes_of, make_checksums_good, Built};
use gvrs_tests::page::{Body, Element, Metadata, Page, Tile, FLOAT, INTEGER, INTEGER_CODED, SHORT};
use gvrs_tests::second::listing::listing;

fn main() -> ExitCode {
    let Some(folder) = env::args().nth(1) else {
        eprintln!("usage: listing_files FOLDER");
        return ExitCode::from(2);
    };
    for (name, file) in files() {
        if let Err(error) = write(Path::new(&folder), name, &file) {
            eprintln!("{name}: {error}");
            return ExitCode::FAILURE;
        }
    }
    ExitCode::SUCCESS
}

fn write(folder: &Path, name: &str, file: &[u8]) -> io::Result<()> {
    fs::write(folder.join(name).with_extension("gvrs"), file)?;
    let stored = Path::new(concat!(env!("CARGO_MANIFEST_DIR"), "/listing")).join(name);
    let text = fs::read_to_string(stored.with_extension("txt"))?;
    if text == listing(file) {
        Ok(())
    } else {
        Err(io::Error::other(format!("the second implementation lists {:?}", listing(file))))
    }
}

fn files() -> Vec<(&'static str, Vec<u8>)> {
    vec![
        ("sample", bytes_of(&sample())),
        ("empty-file", Vec::new()),
        ("refused-1", changed(|built| built.bytes[4] = b'_')),
        ("refused-2", changed(|built| built.bytes[13] = 3)),
        ("refused-3", changed(|built| set(built, "raster space", 3))),
        ("refused-4", changed(|built| set(built, "grid rows", 65_537))),
        ("refused-5", changed(|built| set(built, "time opened", 1))),
        ("refused-6", changed(|built| built.bytes.truncate(built.bytes.len() - 8))),
        ("refused-7", checksum_changed()),
        ("refused-8", changed(|built| set(built, "tile index", 4))),
        ("refused-9", changed(|built| set(built, "tile directory reference", 0))),
        ("none-stored", bytes_of(&Page::of_sides([70, 9], [8, 5]))),
        ("out-of-order", out_of_order()),
        ("four-types", four_types()),
        ("packed", packed()),
        ("said", said()),
        ("second-rule", by_rule(&[2])),
        ("no-rule", by_rule(&[1, 2])),
        ("other-type", none_stored_of(&[INTEGER])),
        ("more-elements", none_stored_of(&[SHORT, SHORT])),
        ("units", units()),
        ("right-scores", scores([900, -1])),
        ("no-scores", scores([900, -2])),
        ("tall", bytes_of(&Page::of_sides([65_536, 1], [512, 1]))),
        ("wide", wide()),
        ("large-tiles", bytes_of(&Page::of_sides([4096, 4096], [512, 512]))),
        ("65535-bytes", of_length(65_536)[..65_535].to_vec()),
        ("65536-bytes", of_length(65_536)),
        ("65537-bytes", [of_length(65_536), vec![0]].concat()),
        ("65544-bytes", of_length(65_544)),
    ]
}

/// Document 01: "A 3 by 3 grid with 2 by 2 tiles, one element, tile 2 alone stored".
fn sample() -> Page {
    let mut page = Page::of_sides([3, 3], [2, 2]);
    page.insert(0, tile(2, 16));
    page
}

/// The sample's sides, elements of these types, and no tile record.
fn none_stored_of(types: &[u8]) -> Vec<u8> {
    let mut page = Page::of_sides([3, 3], [2, 2]);
    let named = |(number, type_code): (u8, &u8)| Element::new(*type_code, &[b'a' + number]);
    page.elements = (0..).zip(types).map(named).collect();
    bytes_of(&page)
}

fn tile(index: u32, length: usize) -> Body {
    Body::Tile(Tile { index, contents: vec![vec![7; length]] })
}

/// The sample page with one thing changed, and its checksums made good.
fn changed(change: fn(&mut Built)) -> Vec<u8> {
    let mut built = build(&sample());
    change(&mut built);
    make_checksums_good(&mut built.bytes);
    built.bytes
}

fn set(built: &mut Built, name: &str, value: u64) {
    let field = built.only(name);
    built.set(&field, value);
}

/// The last byte of the file is one of a checksum.
fn checksum_changed() -> Vec<u8> {
    let mut file = bytes_of(&sample());
    let last = file.len() - 1;
    file[last] ^= 1;
    file
}

/// Every third of 1,200 tiles, in an order that is far from rising.
fn out_of_order() -> Vec<u8> {
    let mut page = Page::of_sides([30, 40], [1, 1]);
    page.elements = vec![Element::new(SHORT, b"z")];
    for number in 0..400 {
        page.insert(page.records.len(), tile(number * 171 % 400 * 3, 2));
    }
    bytes_of(&page)
}

/// An element of every type. Tile 0 has the least and the greatest values, infinity and a NaN among
/// them; in tile 1 the Float is compressed; tile 2 is absent.
fn four_types() -> Vec<u8> {
    let mut page = Page::of_sides([2, 6], [2, 2]);
    let types = [INTEGER, INTEGER_CODED, FLOAT, SHORT];
    page.elements = types.iter().map(|code| Element::new(*code, &[b'a' + code])).collect();
    page.elements[0].set_range_and_fill(0, 9, u32::MAX);
    page.elements[2].set_range_and_fill(0, 9, (-1.5f32).to_bits());
    page.elements[3].set_range_and_fill(0, 9, 0x8000);
    let integers = bytes_of_all([0, 1, 0x7fff_ffff, 0x8000_0000]);
    let floats = bytes_of_all([0x3fc0_0000, 0x7fc1_2345, 0xff80_0000, 0x8000_0000]);
    let shorts = [0, 0, 1, 0, 0xff, 0x7f, 0, 0x80].to_vec();
    for (index, length) in [(0, 16), (1, 15)] {
        let contents =
            vec![integers.clone(), integers.clone(), floats[..length].to_vec(), shorts.clone()];
        page.insert(page.records.len(), Body::Tile(Tile { index, contents }));
    }
    bytes_of(&page)
}

/// Scores whose fill would be one too. Tile 0 is packed by compressor index 3 and has 900 to 903 and
/// 901 to 904; so is tile 1, by a predictor that there is not; tile 2 is packed by index 4, tile 3
/// is absent. Checksums are off.
fn packed() -> Vec<u8> {
    let mut page = Page::of_sides([2, 15], [2, 4]);
    page.checksums = false;
    page.elements = vec![Element::new(SHORT, b"score")];
    page.elements[0].set_range_and_fill(0, 1000, 950);
    for (index, [compressor, predictor]) in [[3, 0], [3, 9], [4, 0]].into_iter().enumerate() {
        let tile = Tile { index: index as u32, contents: vec![from_900(compressor, predictor)] };
        page.insert(page.records.len(), Body::Tile(tile));
    }
    let name = b"scanner".to_vec();
    let text = Vec::new();
    page.insert(
        0,
        Body::Metadata(Metadata {
            name,
            id: 1,
            data_type: 8,
            content: text.clone(),
            description: text,
        }),
    );
    page.insert(0, Body::MetadataDirectory(vec![1]));
    bytes_of(&page)
}

/// The compressed content of eight scores: by predictor 0, 900 to 903 and 901 to 904.
fn from_900(compressor: u8, predictor: u8) -> Vec<u8> {
    let mut content = vec![compressor, predictor];
    content.extend(900u32.to_le_bytes());
    content.extend(7u32.to_le_bytes());
    content.extend([0, 0b11, 0]); // a tree of one leaf, the number 1
    content
}

/// A page with every text: a product label; five methods, of which the fourth is Huffman; an element
/// of scores, packed by that in tile 0, and an integer-coded one, each integer a quarter, plus a half;
/// a metadata record with content and description. Tile 1 is absent.
fn said() -> Vec<u8> {
    let mut page = Page::of_sides([2, 8], [2, 4]);
    page.label = "Blatt \"7\"".into();
    page.methods = vec![
        b"GvrsDeflate".to_vec(),
        b"two words".to_vec(),
        b"GvrsFloat".to_vec(),
        b"GvrsHuffman".to_vec(),
        b"x\x1b\"\xff".to_vec(),
    ];
    page.elements = vec![Element::new(SHORT, b"score"), Element::new(INTEGER_CODED, b"height")];
    page.elements[0].set_range_and_fill(0, 1000, 0xffff);
    page.elements[0].label = "Score".into();
    let floats = [-1.5f32, 20.25, -9.0, 4.0, 0.5].map(f32::to_bits);
    page.elements[1].range_and_fill[..20].copy_from_slice(&bytes_of_all(floats));
    page.elements[1].set_range_and_fill(-8i32 as u32, 79, -38i32 as u32);
    page.elements[1].continuous = 1;
    page.elements[1].label = "H\u{f6}he".into();
    page.elements[1].description = "above the sea\n".into();
    page.elements[1].unit = "m".into();
    let heights = [905, -38, 0, 1, 2, 3, 4, 5].into_iter().flat_map(i32::to_le_bytes).collect();
    page.insert(0, Body::Tile(Tile { index: 0, contents: vec![from_900(3, 0), heights] }));
    let metadata = Metadata {
        name: b"scanner".to_vec(),
        id: u32::MAX,
        data_type: 8,
        content: b"\x02\x00A4".to_vec(),
        description: "its \u{85}tray".into(),
    };
    page.insert(1, Body::Metadata(metadata));
    page.insert(2, Body::MetadataDirectory(vec![1]));
    bytes_of(&page)
}

/// Scores of 9,500 and 10,000, and a tile that is absent; metadata records with these IDs say the rule.
fn by_rule(ids: &[u32]) -> Vec<u8> {
    let mut page = Page::of_sides([1, 3], [1, 2]);
    page.elements = vec![Element::new(SHORT, b"score")];
    page.elements[0].set_range_and_fill(0, 10_000, 9_750);
    let content = [9_500i16, 10_000].into_iter().flat_map(i16::to_le_bytes).collect();
    page.insert(0, Body::Tile(Tile { index: 0, contents: vec![content] }));
    for id in ids {
        page.insert(1, Body::Metadata(Metadata::new(b"score_rule", *id)));
    }
    page.insert(0, Body::MetadataDirectory((2..2 + ids.len()).collect()));
    bytes_of(&page)
}

/// Units: of one character, none, and one with line feeds, quotation marks, backslashes and control
/// characters.
fn units() -> Vec<u8> {
    let mut page = Page::of_sides([1, 1], [1, 1]);
    let units = ["m", "", "\u{b5}m \"\\\n\u{1b}[31m\u{7f}\u{85}\u{a0}"];
    page.elements = vec![
        Element::new(FLOAT, b"length"),
        Element::new(SHORT, b"score"),
        Element::new(INTEGER, b"other"),
    ];
    for (element, unit) in page.elements.iter_mut().zip(units) {
        element.unit = unit.into();
    }
    bytes_of(&page)
}

/// A page that a score sheet can be moved into, and with right scores out to: the first tile has these,
/// the second 1,000, the third is absent, the last 0. Both that reach over the grid's edge have -1 there.
fn scores(first: [i16; 2]) -> Vec<u8> {
    let mut page = Page::of_sides([2, 3], [1, 2]);
    page.elements = vec![Element::new(SHORT, b"score")];
    page.elements[0].set_range_and_fill(0, 1000, 0xffff);
    for (index, scores) in [(0, first), (1, [1_000, -1]), (3, [0, -1])] {
        let contents = vec![scores.into_iter().flat_map(i16::to_le_bytes).collect()];
        page.insert(page.records.len(), Body::Tile(Tile { index, contents }));
    }
    bytes_of(&page)
}

/// More cells than a program may want to hold at once. Tiles 0 and 108 have numbers that differ, tile
/// 109 is compressed.
fn wide() -> Vec<u8> {
    let mut page = Page::of_sides([1100, 1000], [100, 100]);
    for index in [0, 108] {
        let content = (0..10_000u32).flat_map(|number| (number + index).to_le_bytes()).collect();
        page.insert(page.records.len(), Body::Tile(Tile { index, contents: vec![content] }));
    }
    page.insert(page.records.len(), tile(109, 10));
    bytes_of(&page)
}

fn bytes_of_all<const COUNT: usize>(numbers: [u32; COUNT]) -> Vec<u8> {
    numbers.iter().flat_map(|number| number.to_le_bytes()).collect()
}

/// The sample page, brought to a length by a free record.
fn of_length(length: usize) -> Vec<u8> {
    let mut page = sample();
    page.insert(0, Body::Free(16));
    page.insert(0, Body::FileSpaceDirectory(vec![1]));
    page.records[1].surplus = length - bytes_of(&page).len();
    bytes_of(&page)
}
