//! A page, and what a lay-down of it is given.

use gvrs_tests::build::{build, make_checksum_good, Field, Role};
use gvrs_tests::page::{Body, Filler, Page, Record, Tile, TileDirectory};
use gvrs_tests::prng::Prng;
use gvrs_tests::random_page::random_page;
use gvrs_tests::second::lay_down::Given;

#[derive(Clone)]
pub struct Draft {
    /// The description of the front. Its one record is an empty tile directory.
    pub page: Page,
    pub given: Given,
}

/// Cell bytes of all tiles together that pages at random keep to, if they list more than one tile.
const MOST_CELL_BYTES: usize = 8192;

/// The fields of the front that a lay-down sets. It sets the checksum too.
pub const SET_FIELDS: [&str; 5] = [
    "time modified",
    "time opened",
    "file-space reference",
    "metadata reference",
    "tile directory reference",
];

impl Draft {
    /// A lay-down of these tiles, with any cells.
    pub fn new(page: Page, indexes: Vec<u32>, random: &mut Prng) -> Draft {
        let mut page = page;
        page.records = vec![directory(TileDirectory::compact(0, 0, 0, 0))];
        let built = build(&page);
        let front = built.bytes[..built.starts[0]].to_vec();
        let cells = random.bytes(indexes.len() * tile_bytes(&page));
        let given = Given { front, time: time(random), indexes, cells };
        Draft { page, given }
    }

    /// A page at random and any of its tiles, with anything in the fields that a lay-down sets.
    pub fn at_random(random: &mut Prng) -> Draft {
        let page = random_page(random);
        let indexes = indexes(&page, random);
        let mut draft = Draft::new(page, indexes, random);
        for field in draft.fields_set() {
            let junk = match random.below(3) {
                0 => random.bytes(field.width),
                1 => vec![0xff; field.width],
                _ => continue,
            };
            draft.given.front[field.at..field.at + field.width].copy_from_slice(&junk);
        }
        draft
    }

    /// One at random with a file of at most so many bytes.
    pub fn short(most: usize, random: &mut Prng) -> Draft {
        loop {
            let draft = Draft::at_random(random);
            if draft.file_length() <= most {
                return draft;
            }
        }
    }

    /// Every tile of the page.
    pub fn of_all_tiles(page: Page, random: &mut Prng) -> Draft {
        let indexes = (0..page.tile_count() as u32).collect();
        Draft::new(page, indexes, random)
    }

    /// The places of the fields that a lay-down sets, and of the header's checksum.
    pub fn fields_set(&self) -> Vec<Field> {
        let mut fields = build(&self.page).fields;
        fields.retain(|field| field.owner.is_none());
        fields.retain(|field| SET_FIELDS.contains(&field.name) || field.role == Role::Checksum);
        fields
    }

    /// The description of the file: a tile record for each index, a directory of the whole grid,
    /// and zeros in what is reserved.
    pub fn laid_page(&self) -> Page {
        let mut page = self.page.clone();
        page.filler = Filler::Zero;
        page.time_modified = self.given.time;
        page.records.clear();
        for (number, index) in self.given.indexes.iter().enumerate() {
            let elements = 0..page.elements.len();
            let contents =
                elements.map(|element| self.cells_of(number, element).to_vec()).collect();
            page.records.push(Record::new(Body::Tile(Tile { index: *index, contents })));
        }
        page.records.push(directory(TileDirectory::compact(0, 0, 0, 0)));
        page.list_whole_grid();
        page
    }

    /// The file as the builder has it: the front as it is given but for the fields that a lay-down
    /// sets, which are the builder's, and the builder's records.
    pub fn as_built(&self) -> Vec<u8> {
        let built = build(&self.laid_page());
        let mut file = self.given.front.clone();
        for field in SET_FIELDS.map(|name| built.only(name)) {
            let own = &built.bytes[field.at..field.at + field.width];
            file[field.at..field.at + field.width].copy_from_slice(own);
        }
        make_checksum_good(&mut file[16..], self.page.checksums);
        file.extend(&built.bytes[built.starts[0]..]);
        file
    }

    /// The bytes given of an element, in the tile of that number among those listed.
    pub fn cells_of(&self, number: usize, element: usize) -> &[u8] {
        let before: usize = (0..element).map(|other| self.page.uncompressed_size(other)).sum();
        let start = number * tile_bytes(&self.page) + before;
        &self.given.cells[start..start + self.page.uncompressed_size(element)]
    }

    /// docs/LAYOUT.md, section 13.
    pub fn file_length(&self) -> usize {
        let records = self.given.indexes.len() * record_length(&self.page);
        self.given.front.len() + records + directory_length(&self.page)
    }
}

fn directory(directory: TileDirectory) -> Record {
    Record::new(Body::TileDirectory(directory))
}

/// U of all elements together.
pub fn tile_bytes(page: &Page) -> usize {
    (0..page.elements.len()).map(|element| page.uncompressed_size(element)).sum()
}

pub fn record_length(page: &Page) -> usize {
    let sizes = (0..page.elements.len()).map(|element| page.uncompressed_size(element));
    let sections: usize = sizes.map(|size| 4 + size.next_multiple_of(4)).sum();
    (12 + sections + 4).next_multiple_of(8)
}

pub fn directory_length(page: &Page) -> usize {
    (36 + 4 * page.tile_count()).next_multiple_of(8)
}

/// Any number but zero, often with one bit or with all.
fn time(random: &mut Prng) -> u64 {
    match random.below(4) {
        0 => 1 << random.below(64),
        1 => u64::MAX,
        _ => random.long().max(1),
    }
}

/// No tile, all tiles or some, the first and the last often among them.
fn indexes(page: &Page, random: &mut Prng) -> Vec<u32> {
    let tiles = page.tile_count();
    let most = (MOST_CELL_BYTES / tile_bytes(page)).clamp(1, tiles);
    if random.one_in(8) {
        return Vec::new();
    }
    if most == tiles && random.one_in(3) {
        return (0..tiles as u32).collect();
    }
    let mut indexes: Vec<u32> = Vec::new();
    for _ in 0..random.between(1, most) {
        let any = random.below(tiles);
        indexes.push(random.pick(&[0, any, any, any, tiles - 1]) as u32);
    }
    indexes.sort_unstable();
    indexes.dedup();
    indexes
}
