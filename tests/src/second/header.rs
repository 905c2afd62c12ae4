//! The identification block and the header record: refusals 1 to 5 (G Tables 6 to 12).

use super::fields::{count_at, integer_at, long_at, short_at, Reader, Span};
use super::geometry::{tile_bytes, tile_count};
use super::names::{is_identifier, LONGEST_NAME};
use super::utf8::is_utf8;

/// Document 01, stage 3: the header record starts at 16.
pub const HEADER_START: usize = 16;

pub const FILE_CEILING: usize = 16_777_216;
const GRID_SIDE_CEILING: u64 = 65_536;
const TILE_SIDE_CEILING: u64 = 4_096;
const TILE_CEILING: u64 = 65_536;
const ELEMENT_CEILING: usize = 16;
const TILE_BYTES_CEILING: u128 = 1_048_576;

/// G Table 7: where the element entries begin, from the record's start.
const ELEMENTS_OFFSET: usize = 268;

/// What a header record that passes stage 3 says.
pub struct Header {
    /// Position behind the header record.
    pub end: usize,
    pub time_modified: u64,
    pub time_opened: u64,
    pub file_space_reference: u64,
    pub metadata_reference: u64,
    pub tile_directory_reference: u64,
    pub grid_rows: u64,
    pub grid_columns: u64,
    pub tile_rows: u64,
    pub tile_columns: u64,
    pub checksums_on: bool,
    pub raster_space: u8,
    pub coordinate_system: u8,
    pub element_count: usize,
    /// The elements, at most the first 16.
    pub elements: Vec<Element>,
    /// What stands behind them. Of more than 16 elements it is not read.
    pub behind: Option<Behind>,
}

/// The names of the compression methods and the product label (G Table 7).
pub struct Behind {
    pub methods: Vec<Span>,
    pub label: Span,
}

/// One element (G Table 8).
pub struct Element {
    pub type_code: u8,
    pub continuous: u8,
    pub name: Vec<u8>,
    pub name_span: Span,
    pub label: Span,
    pub description: Span,
    pub unit: Span,
    /// The bits of minimum, maximum and fill, as they are: 16 of a Short, else 32.
    pub minimum: u32,
    pub maximum: u32,
    pub fill: u32,
    /// Of an integer-coded element the bits of its Floats: minimum, maximum, fill, scale and offset.
    pub floats: Option<[u32; 5]>,
}

impl Element {
    /// G Table 2: two bytes for Short, four for the others.
    pub fn cell_size(&self) -> u64 {
        if self.type_code == 3 {
            2
        } else {
            4
        }
    }
}

/// Document 01, refusal 1: "fewer than 16 bytes, or the first 12 differ".
pub fn is_identified(file: &[u8]) -> bool {
    file.len() >= 16 && file.starts_with(b"gvrs raster\0")
}

/// Document 01, refusal 2: "bytes 12 and 13 are not 1 and 4".
pub fn has_version_1_4(file: &[u8]) -> bool {
    file[12] == 1 && file[13] == 4
}

/// Document 01, stage 3, of a file of `length` bytes from as many of its first bytes as hold the
/// whole header. `None` is refusal 3.
pub fn header_of(first: &[u8], length: u64) -> Option<Header> {
    let record = header_record(first, length)?;
    let fields = fields_before_checksum(record)?;
    printed_values(fields)?;
    let element_count = element_count(fields)?;
    let mut reader = Reader::new(fields, ELEMENTS_OFFSET);
    let elements = elements(&mut reader, element_count)?;
    let behind = if element_count <= ELEMENT_CEILING { Some(behind(&mut reader)?) } else { None };
    Some(Header {
        end: HEADER_START + record.len(),
        time_modified: long_at(fields, 24)?,
        time_opened: long_at(fields, 32)?,
        file_space_reference: long_at(fields, 40)?,
        metadata_reference: long_at(fields, 48)?,
        tile_directory_reference: long_at(fields, 64)?,
        grid_rows: side(fields, 88)?,
        grid_columns: side(fields, 92)?,
        tile_rows: side(fields, 96)?,
        tile_columns: side(fields, 100)?,
        checksums_on: *fields.get(112)? == 1,
        raster_space: *fields.get(113)?,
        coordinate_system: *fields.get(114)?,
        element_count,
        elements,
        behind,
    })
}

/// Document 01, stage 3: "its type is 6".
fn header_record(first: &[u8], length: u64) -> Option<&[u8]> {
    let end = lawful_end(first, length)?;
    let record_type = *first.get(HEADER_START + 4)?;
    let record = first.get(HEADER_START..end)?;
    (record_type == 6).then_some(record)
}

/// Where the header ends. Document 01, stage 3: "Its length is a multiple of 8 and ends inside the
/// file", which has `length` bytes.
pub fn lawful_end(first: &[u8], length: u64) -> Option<usize> {
    let end = HEADER_START + count_at(first, HEADER_START)?;
    ((end - HEADER_START).is_multiple_of(8) && end as u64 <= length).then_some(end)
}

/// A field fits if it ends at or before the record's last four bytes.
fn fields_before_checksum(record: &[u8]) -> Option<&[u8]> {
    record.get(..record.len().checked_sub(4)?)
}

/// Document 01, stage 3: "Grid and tile sides are at least 1."
fn side(fields: &[u8], offset: usize) -> Option<u64> {
    let side = count_at(fields, offset)?;
    (side >= 1).then_some(side as u64)
}

/// Document 01, stage 3: "Checksum-enabled is 0 or 1; raster space and coordinate system are 0 to
/// 2."
fn printed_values(fields: &[u8]) -> Option<()> {
    let good = *fields.get(112)? <= 1 && *fields.get(113)? <= 2 && *fields.get(114)? <= 2;
    good.then_some(())
}

/// Document 01, stage 3: "There is at least one element"; a negative count is a fault.
fn element_count(fields: &[u8]) -> Option<usize> {
    let count = count_at(fields, 264)?;
    (count >= 1).then_some(count)
}

/// Document 01, stage 3: "At most the first 16 element entries are read".
fn elements(reader: &mut Reader, count: usize) -> Option<Vec<Element>> {
    let mut elements = Vec::new();
    for _ in 0..count.min(ELEMENT_CEILING) {
        elements.push(element(reader)?);
    }
    names_distinct(&elements).then_some(elements)
}

/// G Table 8. The record starts at a multiple of 8, so a position from its start is aligned as the
/// file position is (reading 2). Label, description and unit of measure are UTF-8 (Req 06).
fn element(reader: &mut Reader) -> Option<Element> {
    let type_code = reader.byte()?;
    let continuous = reader.byte()?;
    let _reserved = reader.take(6)?;
    let (name, name_span) = string(reader)?;
    let block = reader.take(range_block_length(type_code)?)?;
    let [minimum, maximum, fill] = range_and_fill(type_code, block)?;
    let floats = floats(type_code, block);
    reader.fill_to_four()?;
    let label = text(reader)?;
    let description = text(reader)?;
    let unit = text(reader)?;
    reader.fill_to_four()?;
    is_identifier(name, LONGEST_NAME).then(|| Element {
        type_code,
        continuous,
        name: name.to_vec(),
        name_span,
        label,
        description,
        unit,
        minimum,
        maximum,
        fill,
        floats,
    })
}

/// A string of the header and its place.
fn string<'a>(reader: &mut Reader<'a>) -> Option<(&'a [u8], Span)> {
    let bytes = reader.string()?;
    Some((bytes, reader.last(HEADER_START, bytes)))
}

/// The place of a string that is UTF-8.
fn text(reader: &mut Reader) -> Option<Span> {
    let (bytes, span) = string(reader)?;
    is_utf8(bytes).then_some(span)
}

/// Document 01, stage 3: "each of a type of G's Table 2". Codes of G Table 8, lengths of G Tables 9
/// to 12 and, for Short, document 01, 'Where G disagrees with itself'.
fn range_block_length(type_code: u8) -> Option<usize> {
    match type_code {
        0 | 2 | 3 => Some(12),
        1 => Some(32),
        _ => None,
    }
}

/// Minimum, maximum and fill of a range block (G Tables 9 to 12). An integer-coded element's are its
/// integers, from 20 on (reading 10).
fn range_and_fill(type_code: u8, block: &[u8]) -> Option<[u32; 3]> {
    let first = if type_code == 1 { 20 } else { 0 };
    let bits = |at| match type_code {
        3 => short_at(block, at).map(u32::from),
        _ => integer_at(block, at),
    };
    Some([bits(first)?, bits(first + 4)?, bits(first + 8)?])
}

/// The five Floats at the head of the block of an integer-coded element (G Table 11).
fn floats(type_code: u8, block: &[u8]) -> Option<[u32; 5]> {
    let bits = |number: usize| integer_at(block, 4 * number).expect("a block of 32 bytes");
    (type_code == 1).then(|| std::array::from_fn(bits))
}

/// Document 01, stage 3: "no two are equal".
fn names_distinct(elements: &[Element]) -> bool {
    let earlier = |at: usize| elements[..at].iter().any(|other| other.name == elements[at].name);
    !(0..elements.len()).any(earlier)
}

/// Document 01, stage 3: "its fields fit with 0 to 7 padding bytes before the checksum". What
/// stands behind the elements: methods, label, eight reserved bytes (G Table 7). The label is UTF-8
/// (Req 06); the methods' names are identifiers by G's word, and no rule looks into them.
fn behind(reader: &mut Reader) -> Option<Behind> {
    let count = reader.count()?;
    let mut methods = Vec::new();
    for _ in 0..count {
        methods.push(string(reader)?.1);
    }
    let label = text(reader)?;
    let _reserved = reader.take(8)?;
    (reader.left() <= 7).then_some(Behind { methods, label })
}

/// Document 01, house ceilings: refusal 4, of a file of `length` bytes. "Each ceiling itself is
/// allowed."
pub fn passes_a_ceiling(length: u64, header: &Header) -> bool {
    length > FILE_CEILING as u64
        || header.grid_rows > GRID_SIDE_CEILING
        || header.grid_columns > GRID_SIDE_CEILING
        || header.tile_rows > TILE_SIDE_CEILING
        || header.tile_columns > TILE_SIDE_CEILING
        || tile_count(header) > TILE_CEILING
        || header.element_count > ELEMENT_CEILING
        || tile_bytes(header) > TILE_BYTES_CEILING
}

/// Document 01, refusal 5: "time opened for writing is not zero".
pub fn is_opened(header: &Header) -> bool {
    header.time_opened != 0
}
