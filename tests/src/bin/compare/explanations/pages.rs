//! Pages to break: with all that a rule can look at, three of each kind.

use gvrs_tests::page::{
    Body, Element, Filler, Metadata, Page, Record, Tile, TileDirectory, FLOAT, INTEGER,
    INTEGER_CODED, SHORT,
};

/// The numbers of the rich page's directories among its records.
pub const TILE_DIRECTORY: usize = 6;
pub const METADATA_DIRECTORY: usize = 7;
pub const FILE_SPACE_DIRECTORY: usize = 8;

/// Its tile records and the indexes of their tiles, its metadata records and its free records.
pub const TILES: [(usize, u32); 3] = [(0, 0), (3, 4), (9, 8)];
pub const METADATA: [usize; 3] = [1, 4, 10];
pub const FREE: [usize; 3] = [2, 5, 11];

/// With and without checksums, with references of both forms, with zeros and with junk in what no
/// rule looks at.
pub fn every() -> Vec<Page> {
    let mut pages = Vec::new();
    for checksums in [true, false] {
        for standard in [0, 1] {
            for filler in [Filler::Zero, Filler::Junk(7)] {
                let mut page = rich();
                page.checksums = checksums;
                page.filler = filler;
                page.records[TILE_DIRECTORY] = directory(standard);
                pages.push(page);
            }
        }
    }
    pages
}

/// Four elements, 3 by 3 tiles, three tile records, metadata records and free records.
pub fn rich() -> Page {
    let mut page = Page::of_sides([8, 9], [3, 3]);
    page.elements = [INTEGER, INTEGER_CODED, SHORT, FLOAT]
        .into_iter()
        .zip(["alpha", "bravo", "gamma", "delta"])
        .map(|(type_code, name)| element(type_code, name))
        .collect();
    page.methods = vec![b"first".to_vec(), b"second_one".to_vec()];
    page.label = "the page's label".as_bytes().to_vec();
    let [first, middle, last] = TILES.map(|(_, index)| Body::Tile(tile(&page, index)));
    let bodies = [
        first,
        metadata("note", 1),
        Body::Free(24),
        middle,
        metadata("note", 2),
        Body::Free(32),
        Body::Free(16), // the tile directory
        Body::MetadataDirectory(METADATA.to_vec()),
        Body::FileSpaceDirectory(FREE.to_vec()),
        last,
        metadata("other", 1),
        Body::Free(40),
    ];
    page.records = bodies.into_iter().map(Record::new).collect();
    page.records[TILE_DIRECTORY] = directory(0);
    page
}

fn directory(standard: u8) -> Record {
    let whole = TileDirectory { format: 0, standard, row0: 0, column0: 0, rows: 3, columns: 3 };
    Record::new(Body::TileDirectory(whole))
}

fn element(type_code: u8, name: &str) -> Element {
    let mut element = Element::new(type_code, name.as_bytes());
    element.label = format!("label of {name}").into_bytes();
    element.description = format!("what {name} is").into_bytes();
    element.unit = "m/s".as_bytes().to_vec();
    element
}

/// Contents of a few bytes each.
fn tile(page: &Page, index: u32) -> Tile {
    let contents = (0..page.elements.len()).map(|number| vec![1; 2 + number]).collect();
    Tile { index, contents }
}

fn metadata(name: &str, id: u32) -> Body {
    let mut metadata = Metadata::new(name.as_bytes(), id);
    metadata.content = vec![9; 5];
    metadata.description = "what it says".as_bytes().to_vec();
    Body::Metadata(metadata)
}
