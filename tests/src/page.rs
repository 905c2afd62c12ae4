//! The description of a file, from which `build` makes bytes. It can also describe files that break
//! a rule: nothing here is judged.

use crate::second::chain;

#[derive(Clone)]
pub struct Page {
    pub uuid: [u8; 16],
    pub time_modified: u64,
    pub time_opened: u64,
    pub levels: u16,
    pub grid_rows: u32,
    pub grid_columns: u32,
    pub tile_rows: u32,
    pub tile_columns: u32,
    pub checksums: bool,
    pub raster_space: u8,
    pub coordinate_system: u8,
    /// The 18 doubles of G Table 7, as bits.
    pub coordinates: [u64; 18],
    pub elements: Vec<Element>,
    pub methods: Vec<Vec<u8>>,
    pub label: Vec<u8>,
    /// Bytes of the header record beyond its least length.
    pub surplus: usize,
    /// The records behind the header, in file order.
    pub records: Vec<Record>,
    pub filler: Filler,
}

/// What reserved bytes, padding and the content of free records hold.
#[derive(Clone, Copy, PartialEq)]
pub enum Filler {
    Zero,
    /// Pseudo-random bytes from this seed.
    Junk(u64),
}

/// G Table 8.
#[derive(Clone)]
pub struct Element {
    pub type_code: u8,
    pub continuous: u8,
    pub name: Vec<u8>,
    /// The block of G Tables 9 to 12.
    pub range_and_fill: Vec<u8>,
    pub label: Vec<u8>,
    pub description: Vec<u8>,
    pub unit: Vec<u8>,
}

pub const INTEGER: u8 = 0;
pub const INTEGER_CODED: u8 = 1;
pub const FLOAT: u8 = 2;
pub const SHORT: u8 = 3;

impl Element {
    /// An element with a block of zeros and empty strings.
    pub fn new(type_code: u8, name: &[u8]) -> Element {
        let block_length = if type_code == INTEGER_CODED { 32 } else { 12 };
        Element {
            type_code,
            continuous: 0,
            name: name.to_vec(),
            range_and_fill: vec![0; block_length],
            label: Vec::new(),
            description: Vec::new(),
            unit: Vec::new(),
        }
    }

    pub fn cell_size(&self) -> usize {
        if self.type_code == SHORT {
            2
        } else {
            4
        }
    }

    /// Sets minimum, maximum and fill, each as bits. Of an integer-coded element these are its
    /// integers.
    pub fn set_range_and_fill(&mut self, minimum: u32, maximum: u32, fill: u32) {
        let first = if self.type_code == INTEGER_CODED { 20 } else { 0 };
        let width = self.cell_size();
        for (number, bits) in [minimum, maximum, fill].into_iter().enumerate() {
            let at = first + 4 * number;
            self.range_and_fill[at..at + width].copy_from_slice(&bits.to_le_bytes()[..width]);
        }
    }
}

/// A record behind the header.
#[derive(Clone)]
pub struct Record {
    pub body: Body,
    /// Bytes beyond the least length, before the checksum.
    pub surplus: usize,
}

#[derive(Clone)]
pub enum Body {
    /// A free-space record of this whole length.
    Free(usize),
    Metadata(Metadata),
    Tile(Tile),
    /// The records listed, by their number among `Page::records`.
    FileSpaceDirectory(Vec<usize>),
    /// The records listed, by their number among `Page::records`.
    MetadataDirectory(Vec<usize>),
    TileDirectory(TileDirectory),
    /// A record of this type with this content.
    Raw(u8, Vec<u8>),
}

/// G Table 14.
#[derive(Clone)]
pub struct Metadata {
    pub name: Vec<u8>,
    pub id: u32,
    pub data_type: u8,
    pub content: Vec<u8>,
    pub description: Vec<u8>,
}

/// G Table 15.
#[derive(Clone)]
pub struct Tile {
    pub index: u32,
    /// The stored bytes of each element; as many as L says.
    pub contents: Vec<Vec<u8>>,
}

/// G Table 21. The references are those of the page's tile records in the rectangle.
#[derive(Clone)]
pub struct TileDirectory {
    pub format: u8,
    pub standard: u8,
    pub row0: u32,
    pub column0: u32,
    pub rows: u32,
    pub columns: u32,
}

impl Record {
    pub fn new(body: Body) -> Record {
        Record { body, surplus: 0 }
    }

    pub fn record_type(&self) -> u8 {
        match &self.body {
            Body::Free(_) => chain::FREE,
            Body::Metadata(_) => chain::METADATA,
            Body::Tile(_) => chain::TILE,
            Body::FileSpaceDirectory(_) => chain::FILE_SPACE_DIRECTORY,
            Body::MetadataDirectory(_) => chain::METADATA_DIRECTORY,
            Body::TileDirectory(_) => chain::TILE_DIRECTORY,
            Body::Raw(record_type, _) => *record_type,
        }
    }
}

impl Page {
    /// A page without a tile record: one Integer element, one tile, a compact directory of the whole
    /// tile grid, checksums on.
    pub fn plain() -> Page {
        Page {
            uuid: [0; 16],
            time_modified: 1,
            time_opened: 0,
            levels: 0,
            grid_rows: 2,
            grid_columns: 2,
            tile_rows: 2,
            tile_columns: 2,
            checksums: true,
            raster_space: 0,
            coordinate_system: 0,
            coordinates: [0; 18],
            elements: vec![Element::new(INTEGER, b"z")],
            methods: Vec::new(),
            label: Vec::new(),
            surplus: 0,
            records: vec![Record::new(Body::TileDirectory(TileDirectory::compact(0, 0, 1, 1)))],
            filler: Filler::Zero,
        }
    }

    /// A plain page of this grid and tile, rows then columns, with a directory of the whole grid.
    pub fn of_sides(grid: [u32; 2], tile: [u32; 2]) -> Page {
        let mut page = Page::plain();
        [page.grid_rows, page.grid_columns] = grid;
        [page.tile_rows, page.tile_columns] = tile;
        page.list_whole_grid();
        page
    }

    /// Makes the tile directory cover the whole tile grid.
    pub fn list_whole_grid(&mut self) {
        let (rows, columns) = (self.tiles_down() as u32, self.tiles_across() as u32);
        for record in &mut self.records {
            if let Body::TileDirectory(directory) = &mut record.body {
                (directory.row0, directory.column0) = (0, 0);
                (directory.rows, directory.columns) = (rows, columns);
            }
        }
    }

    pub fn tiles_across(&self) -> usize {
        self.grid_columns.div_ceil(self.tile_columns) as usize
    }

    pub fn tiles_down(&self) -> usize {
        self.grid_rows.div_ceil(self.tile_rows) as usize
    }

    pub fn tile_count(&self) -> usize {
        self.tiles_across() * self.tiles_down()
    }

    /// U of an element.
    pub fn uncompressed_size(&self, element: usize) -> usize {
        self.tile_rows as usize * self.tile_columns as usize * self.elements[element].cell_size()
    }

    /// The numbers of the records of a type.
    pub fn of_type(&self, record_type: u8) -> Vec<usize> {
        let wanted = |number: &usize| self.records[*number].record_type() == record_type;
        (0..self.records.len()).filter(wanted).collect()
    }

    /// Puts a record in front of record `at`; lists keep what they list.
    pub fn insert(&mut self, at: usize, body: Body) {
        for list in self.lists() {
            for number in list.iter_mut().filter(|number| **number >= at) {
                *number += 1;
            }
        }
        self.records.insert(at, Record::new(body));
    }

    /// Removes a record, and its entries in lists.
    pub fn remove(&mut self, at: usize) {
        for list in self.lists() {
            list.retain(|number| *number != at);
            for number in list.iter_mut().filter(|number| **number > at) {
                *number -= 1;
            }
        }
        self.records.remove(at);
    }

    fn lists(&mut self) -> impl Iterator<Item = &mut Vec<usize>> {
        self.records.iter_mut().filter_map(|record| record.list())
    }
}

impl Record {
    /// The list of a file-space or metadata directory.
    pub fn list(&mut self) -> Option<&mut Vec<usize>> {
        match &mut self.body {
            Body::FileSpaceDirectory(listed) | Body::MetadataDirectory(listed) => Some(listed),
            _ => None,
        }
    }
}

impl TileDirectory {
    pub fn compact(row0: u32, column0: u32, rows: u32, columns: u32) -> TileDirectory {
        TileDirectory { format: 0, standard: 0, row0, column0, rows, columns }
    }
}

impl Metadata {
    /// A record without content.
    pub fn new(name: &[u8], id: u32) -> Metadata {
        Metadata {
            name: name.to_vec(),
            id,
            data_type: 0,
            content: Vec::new(),
            description: Vec::new(),
        }
    }
}
