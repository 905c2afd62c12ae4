//! Bytes of a description, with the place of every field.

use std::collections::HashMap;

use crate::page::{Body, Element, Filler, Metadata, Page, Record, Tile, TileDirectory};
use crate::prng::Prng;
use crate::second::chain;
use crate::second::crc32c::crc32c;
use crate::second::fields::integer_at;

/// A file and where its fields are.
#[derive(Clone)]
pub struct Built {
    pub bytes: Vec<u8>,
    /// Start of each record behind the header, as in `Page::records`.
    pub starts: Vec<usize>,
    /// Every field, in file order, without a gap.
    pub fields: Vec<Field>,
}

/// A field's place. `owner` is the number of its record behind the header; the header's fields and
/// the identification block's have none.
#[derive(Clone, Copy)]
pub struct Field {
    pub name: &'static str,
    pub role: Role,
    pub at: usize,
    pub width: usize,
    pub owner: Option<usize>,
}

#[derive(Clone, Copy, PartialEq)]
pub enum Role {
    /// A length, a count, a side or a start of a rectangle.
    Count,
    /// A position in the file.
    Reference,
    /// Any other field that a rule looks at.
    Judged,
    /// A field that no rule looks at, reserved bytes and padding among them.
    Unjudged,
    Checksum,
}

impl Built {
    pub fn value(&self, field: &Field) -> u64 {
        let mut eight = [0; 8];
        eight[..field.width].copy_from_slice(&self.bytes[field.at..field.at + field.width]);
        u64::from_le_bytes(eight)
    }

    /// Writes the low bytes of a value into a field.
    pub fn set(&mut self, field: &Field, value: u64) {
        let bytes = value.to_le_bytes();
        self.bytes[field.at..field.at + field.width].copy_from_slice(&bytes[..field.width]);
    }

    pub fn named(&self, name: &str) -> Vec<Field> {
        self.fields.iter().filter(|field| field.name == name).copied().collect()
    }

    pub fn named_in(&self, name: &str, owner: usize) -> Vec<Field> {
        let wanted = |field: &&Field| field.name == name && field.owner == Some(owner);
        self.fields.iter().filter(wanted).copied().collect()
    }

    /// The field of that name, where a file has just one.
    pub fn only(&self, name: &str) -> Field {
        let fields = self.named(name);
        assert_eq!(fields.len(), 1, "one field {name}");
        fields[0]
    }

    pub fn of_role(&self, role: Role) -> Vec<Field> {
        self.fields.iter().filter(|field| field.role == role).copied().collect()
    }

    /// The length of a record behind the header.
    pub fn length(&self, number: usize) -> usize {
        let end = self.starts.get(number + 1).copied().unwrap_or(self.bytes.len());
        end - self.starts[number]
    }

    /// Bytes between a position in a record behind the header and the record's checksum.
    pub fn left_behind(&self, position: usize, number: usize) -> usize {
        self.starts[number] + self.length(number) - 4 - position
    }
}

/// The file of a description, checksums made good.
pub fn build(page: &Page) -> Built {
    let starts = starts_of(page);
    let mut writer = Writer::new(page.filler, true);
    writer.file(page, &starts);
    let mut built = Built { bytes: writer.bytes, starts, fields: writer.fields };
    make_checksums_good(&mut built.bytes);
    built
}

/// The same bytes, without the places of fields.
pub fn bytes_of(page: &Page) -> Vec<u8> {
    let mut writer = Writer::new(page.filler, false);
    writer.file(page, &starts_of(page));
    make_checksums_good(&mut writer.bytes);
    writer.bytes
}

/// Walks the chain as far as it goes and sets each record's checksum as the header's flag says.
pub fn make_checksums_good(bytes: &mut [u8]) {
    let on = bytes.get(128) == Some(&1);
    let mut start = 16;
    while let Some(length) = record_length(bytes, start) {
        make_checksum_good(&mut bytes[start..start + length], on);
        start += length;
    }
}

/// Sets the checksum of one record.
pub fn make_checksum_good(record: &mut [u8], on: bool) {
    let last = record.len() - 4;
    let summed = if record[4] == chain::FREE { 8 } else { last };
    let checksum = if on { crc32c(&record[..summed]) } else { 0 };
    record[last..].copy_from_slice(&checksum.to_le_bytes());
}

fn record_length(bytes: &[u8], start: usize) -> Option<usize> {
    let length = integer_at(bytes, start)? as usize;
    (length >= 16 && length.is_multiple_of(8) && start + length <= bytes.len()).then_some(length)
}

/// Lengths do not depend on positions, so records are written once with no start known.
fn starts_of(page: &Page) -> Vec<usize> {
    let unknown = vec![0; page.records.len()];
    let mut writer = Writer::new(page.filler, false);
    writer.header(page, &unknown);
    let tiles = tiles_by_index(page);
    let mut starts = Vec::new();
    for number in 0..page.records.len() {
        starts.push(writer.bytes.len());
        writer.record(page, number, &unknown, &tiles);
    }
    starts
}

/// The first tile record of each index.
fn tiles_by_index(page: &Page) -> HashMap<u32, usize> {
    let mut tiles = HashMap::new();
    for (number, record) in page.records.iter().enumerate() {
        if let Body::Tile(tile) = &record.body {
            tiles.entry(tile.index).or_insert(number);
        }
    }
    tiles
}

struct Writer {
    bytes: Vec<u8>,
    fields: Vec<Field>,
    keep_fields: bool,
    owner: Option<usize>,
    junk: Option<Prng>,
}

impl Writer {
    fn new(filler: Filler, keep_fields: bool) -> Writer {
        let junk = match filler {
            Filler::Zero => None,
            Filler::Junk(seed) => Some(Prng::new(seed)),
        };
        Writer { bytes: Vec::new(), fields: Vec::new(), keep_fields, owner: None, junk }
    }

    fn put(&mut self, name: &'static str, role: Role, bytes: &[u8]) {
        if self.keep_fields && !bytes.is_empty() {
            let (at, owner) = (self.bytes.len(), self.owner);
            self.fields.push(Field { name, role, at, width: bytes.len(), owner });
        }
        self.bytes.extend_from_slice(bytes);
    }

    fn integer(&mut self, name: &'static str, role: Role, value: u32) {
        self.put(name, role, &value.to_le_bytes());
    }

    fn long(&mut self, name: &'static str, role: Role, value: u64) {
        self.put(name, role, &value.to_le_bytes());
    }

    /// A string that no rule looks into (G Table 5).
    fn string(&mut self, length_name: &'static str, name: &'static str, bytes: &[u8]) {
        self.put(length_name, Role::Count, &(bytes.len() as u16).to_le_bytes());
        self.put(name, Role::Unjudged, bytes);
    }

    /// An identifier, or a text in UTF-8.
    fn judged_string(&mut self, length_name: &'static str, name: &'static str, bytes: &[u8]) {
        self.put(length_name, Role::Count, &(bytes.len() as u16).to_le_bytes());
        self.put(name, Role::Judged, bytes);
    }

    fn filler(&mut self, name: &'static str, count: usize) {
        let bytes = match &mut self.junk {
            Some(random) => random.bytes(count),
            None => vec![0; count],
        };
        self.put(name, Role::Unjudged, &bytes);
    }

    fn fill_to_four(&mut self, name: &'static str) {
        let count = self.bytes.len().next_multiple_of(4) - self.bytes.len();
        self.filler(name, count);
    }

    fn file(&mut self, page: &Page, starts: &[usize]) {
        self.header(page, starts);
        let tiles = tiles_by_index(page);
        for number in 0..page.records.len() {
            self.record(page, number, starts, &tiles);
        }
    }

    /// G Tables 6 and 7.
    fn header(&mut self, page: &Page, starts: &[usize]) {
        self.put("identification", Role::Judged, b"gvrs raster\0");
        self.put("version", Role::Judged, &[1, 4]);
        self.filler("reserved", 2);
        let start = self.open("header length", chain::HEADER);
        self.put("UUID", Role::Unjudged, &page.uuid);
        self.long("time modified", Role::Unjudged, page.time_modified);
        self.long("time opened", Role::Judged, page.time_opened);
        self.directory_references(page, starts);
        self.filler("reserved", 16);
        self.sides(page);
        self.filler("reserved", 8);
        self.put("checksum flag", Role::Judged, &[u8::from(page.checksums)]);
        self.put("raster space", Role::Judged, &[page.raster_space]);
        self.put("coordinate system", Role::Judged, &[page.coordinate_system]);
        self.filler("reserved", 5);
        for bits in page.coordinates {
            self.long("coordinate", Role::Unjudged, bits);
        }
        self.elements(page);
        self.integer("method count", Role::Count, page.methods.len() as u32);
        for method in &page.methods {
            self.string("method name length", "method name", method);
        }
        self.judged_string("product label length", "product label", &page.label);
        self.filler("reserved", 8);
        self.close(start, page.surplus);
    }

    fn directory_references(&mut self, page: &Page, starts: &[usize]) {
        let reference = |record_type| first_content(page, starts, record_type);
        let file_space = reference(chain::FILE_SPACE_DIRECTORY);
        self.long("file-space reference", Role::Reference, file_space);
        let metadata = reference(chain::METADATA_DIRECTORY);
        self.long("metadata reference", Role::Reference, metadata);
        self.put("levels", Role::Unjudged, &page.levels.to_le_bytes());
        self.filler("reserved", 6);
        let tiles = reference(chain::TILE_DIRECTORY);
        self.long("tile directory reference", Role::Reference, tiles);
    }

    fn sides(&mut self, page: &Page) {
        self.integer("grid rows", Role::Count, page.grid_rows);
        self.integer("grid columns", Role::Count, page.grid_columns);
        self.integer("tile rows", Role::Count, page.tile_rows);
        self.integer("tile columns", Role::Count, page.tile_columns);
    }

    fn elements(&mut self, page: &Page) {
        self.integer("element count", Role::Count, page.elements.len() as u32);
        for element in &page.elements {
            self.element(element);
        }
    }

    /// G Table 8.
    fn element(&mut self, element: &Element) {
        self.put("element type", Role::Judged, &[element.type_code]);
        self.put("continuous", Role::Unjudged, &[element.continuous]);
        self.filler("reserved", 6);
        self.judged_string("element name length", "element name", &element.name);
        self.put("range and fill", Role::Unjudged, &element.range_and_fill);
        self.fill_to_four("element padding");
        self.judged_string("element label length", "element label", &element.label);
        self.judged_string(
            "element description length",
            "element description",
            &element.description,
        );
        self.judged_string("element unit length", "element unit", &element.unit);
        self.fill_to_four("element padding");
    }

    /// Length, type and reserved bytes. Gives the record's start; `close` sets the length.
    fn open(&mut self, length_name: &'static str, record_type: u8) -> usize {
        let start = self.bytes.len();
        self.integer(length_name, Role::Count, 0);
        self.put("record type", Role::Judged, &[record_type]);
        self.filler("reserved", 3);
        start
    }

    /// Padding, checksum and length.
    fn close(&mut self, start: usize, surplus: usize) {
        let least = (self.bytes.len() - start + 4).next_multiple_of(8);
        let end = start + least + surplus;
        self.filler("padding", end - 4 - self.bytes.len());
        self.integer("checksum", Role::Checksum, 0);
        let length = (end - start) as u32;
        self.bytes[start..start + 4].copy_from_slice(&length.to_le_bytes());
    }

    fn record(
        &mut self,
        page: &Page,
        number: usize,
        starts: &[usize],
        tiles: &HashMap<u32, usize>,
    ) {
        self.owner = Some(number);
        let record = &page.records[number];
        let start = self.open("record length", record.record_type());
        match &record.body {
            Body::Free(length) => self.filler("free content", length - 12),
            Body::Metadata(metadata) => self.metadata(metadata),
            Body::Tile(tile) => self.tile(tile),
            Body::FileSpaceDirectory(listed) => self.file_space_directory(page, listed, starts),
            Body::MetadataDirectory(listed) => self.metadata_directory(page, listed, starts),
            Body::TileDirectory(directory) => self.tile_directory(page, directory, starts, tiles),
            Body::Raw(_, content) => self.put("raw content", Role::Judged, content),
        }
        self.close(start, record.surplus);
    }

    /// G Table 14.
    fn metadata(&mut self, metadata: &Metadata) {
        self.judged_string("metadata name length", "metadata name", &metadata.name);
        self.integer("metadata ID", Role::Judged, metadata.id);
        self.put("metadata type", Role::Judged, &[metadata.data_type]);
        self.integer("metadata content length", Role::Count, metadata.content.len() as u32);
        self.put("metadata content", Role::Unjudged, &metadata.content);
        let description = &metadata.description;
        self.judged_string("metadata description length", "metadata description", description);
    }

    /// G Tables 15 and 16.
    fn tile(&mut self, tile: &Tile) {
        self.integer("tile index", Role::Count, tile.index);
        for content in &tile.contents {
            self.integer("content length", Role::Count, content.len() as u32);
            self.put("content", Role::Unjudged, content);
            self.fill_to_four("content padding");
        }
    }

    /// G Tables 17 and 18.
    fn file_space_directory(&mut self, page: &Page, listed: &[usize], starts: &[usize]) {
        self.integer("free count", Role::Count, listed.len() as u32);
        for number in listed {
            self.long("free position", Role::Reference, starts[*number] as u64);
            self.integer("free size", Role::Count, free_size(page, *number, starts));
        }
    }

    /// G Tables 19 and 20.
    fn metadata_directory(&mut self, page: &Page, listed: &[usize], starts: &[usize]) {
        self.integer("metadata count", Role::Count, listed.len() as u32);
        for number in listed {
            let unnamed = Metadata::new(b"z", 0);
            let metadata = match &page.records[*number].body {
                Body::Metadata(metadata) => metadata,
                _ => &unnamed,
            };
            self.long("metadata position", Role::Reference, starts[*number] as u64 + 8);
            self.judged_string("listed name length", "listed name", &metadata.name);
            self.integer("listed ID", Role::Judged, metadata.id);
            self.put("listed type", Role::Judged, &[metadata.data_type]);
        }
    }

    /// G Table 21.
    fn tile_directory(
        &mut self,
        page: &Page,
        directory: &TileDirectory,
        starts: &[usize],
        tiles: &HashMap<u32, usize>,
    ) {
        self.put("directory format", Role::Judged, &[directory.format]);
        self.put("standard references", Role::Judged, &[directory.standard]);
        self.filler("reserved", 6);
        self.integer("row0", Role::Count, directory.row0);
        self.integer("column0", Role::Count, directory.column0);
        self.integer("directory rows", Role::Count, directory.rows);
        self.integer("directory columns", Role::Count, directory.columns);
        for row in 0..directory.rows {
            for column in 0..directory.columns {
                let at = (directory.row0 + row, directory.column0 + column);
                let reference = tile_content(page, at, starts, tiles);
                self.tile_reference(reference, directory.standard);
            }
        }
    }

    fn tile_reference(&mut self, reference: u64, standard: u8) {
        if standard == 0 {
            self.integer("tile reference", Role::Reference, (reference / 8) as u32);
        } else {
            self.long("tile reference", Role::Reference, reference);
        }
    }
}

/// The content of the first record of a type, 0 if there is none.
fn first_content(page: &Page, starts: &[usize], record_type: u8) -> u64 {
    let first = page.records.iter().position(|record| record.record_type() == record_type);
    first.map_or(0, |number| starts[number] as u64 + 8)
}

/// The whole length of the record listed, if it is a free record.
fn free_size(page: &Page, number: usize, starts: &[usize]) -> u32 {
    let record: &Record = &page.records[number];
    match record.body {
        Body::Free(length) => (length + record.surplus) as u32,
        _ => starts.get(number + 1).map_or(16, |next| next.wrapping_sub(starts[number]) as u32),
    }
}

/// The content of the tile record of a tile row and column, 0 if there is none or if the place is
/// outside the tile grid.
fn tile_content(
    page: &Page,
    (row, column): (u32, u32),
    starts: &[usize],
    tiles: &HashMap<u32, usize>,
) -> u64 {
    let (row, column) = (row as usize, column as usize);
    if row >= page.tiles_down() || column >= page.tiles_across() {
        return 0;
    }
    let index = row * page.tiles_across() + column;
    tiles.get(&(index as u32)).map_or(0, |number| starts[*number] as u64 + 8)
}
