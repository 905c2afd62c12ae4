//! Cells and contents of elements (document 01, 'Finding a cell'), by their meaning: the records
//! alone decide, and no directory is looked into.

use super::chain::{Record, TILE};
use super::check::{stages_1_to_8, stages_1_to_9, Answer, Passed};
use super::fields::{integer_at, short_at};
use super::geometry::{tile_count, tiles_across, uncompressed_size};
use super::header::{Element, Header};
use super::unpack::{unpack, Shape};

/// G Table 2.
pub(super) const FLOAT: u8 = 2;

/// A cell is a row, a column and an element number.
#[derive(Clone, Copy, Debug, PartialEq)]
pub struct Spot {
    pub row: u64,
    pub column: u64,
    pub element: u64,
}

/// Req 10: "the tile index and the number inside the tile".
#[derive(Clone, Copy, Debug, PartialEq)]
pub struct Location {
    pub tile: u64,
    pub inside: u64,
}

/// The answer of a cell read. Bits are 16 for a Short, else 32.
#[derive(Clone, Copy, Debug, PartialEq)]
pub enum Cell {
    Stored {
        type_code: u8,
        bits: u32,
        place: u64,
        location: Location,
    },
    /// Req 01: "its place is the start of its element's content".
    Unpacked {
        type_code: u8,
        bits: u32,
        place: u64,
        location: Location,
    },
    Fill {
        type_code: u8,
        bits: u32,
        location: Location,
    },
    Refused(Answer),
}

/// The answer for the content of one element in one tile.
#[derive(Clone, Copy, Debug, PartialEq)]
pub enum Content {
    Present { start: u64, length: u64 },
    Absent,
    Refused(Answer),
}

/// The answer for all cells of one element in one tile, row by row. Bits are 16 of a Short, else
/// 32.
#[derive(Clone, Debug, PartialEq)]
pub enum Cells {
    Stored { start: u64, bits: Vec<u32> },
    Unpacked { start: u64, bits: Vec<u32> },
    Absent,
    Refused(Answer),
}

pub const STORED: u32 = 32;
pub const FILL: u32 = 33;
pub const UNPACKED: u32 = 34;

/// A compressor that no content names.
pub const NO_COMPRESSOR: u32 = 256;

impl Cell {
    /// As `gvrs_cell` and `gvrs_cell_with` give it.
    pub fn as_numbers(&self) -> (u32, [u64; 5]) {
        match *self {
            Cell::Stored { type_code, bits, place, location } => {
                (STORED, in_order(type_code, bits, place, location))
            }
            Cell::Unpacked { type_code, bits, place, location } => {
                (UNPACKED, in_order(type_code, bits, place, location))
            }
            Cell::Fill { type_code, bits, location } => {
                (FILL, in_order(type_code, bits, 0, location))
            }
            Cell::Refused((number, place)) => (number, [0, 0, place, 0, 0]),
        }
    }
}

fn in_order(type_code: u8, bits: u32, place: u64, location: Location) -> [u64; 5] {
    [u64::from(type_code), u64::from(bits), place, location.tile, location.inside]
}

impl Content {
    /// As `gvrs_content` gives it.
    pub fn as_numbers(&self) -> (u32, [u64; 2]) {
        match *self {
            Content::Present { start, length } => (STORED, [start, length]),
            Content::Absent => (FILL, [0, 0]),
            Content::Refused((number, place)) => (number, [place, 0]),
        }
    }
}

impl Cells {
    /// As `gvrs_unpack` gives it, without the cells.
    pub fn as_numbers(&self) -> (u32, [u64; 2]) {
        match self {
            Cells::Stored { start, bits } => (STORED, [*start, bits.len() as u64]),
            Cells::Unpacked { start, bits } => (UNPACKED, [*start, bits.len() as u64]),
            Cells::Absent => (FILL, [0, 0]),
            Cells::Refused((number, place)) => (*number, [*place, 0]),
        }
    }

    /// The cells, none where there are none.
    pub fn bits(&self) -> &[u32] {
        match self {
            Cells::Stored { bits, .. } | Cells::Unpacked { bits, .. } => bits,
            Cells::Absent | Cells::Refused(_) => &[],
        }
    }
}

/// What reads start from: the records, or the refusal that comes before everything else.
pub struct Opened<'a> {
    pub(super) file: &'a [u8],
    pub(super) passed: Result<Passed<'a>, Answer>,
}

impl<'a> Opened<'a> {
    /// Document 01: "A cell read answers with the check's refusal if there is one".
    pub fn checked(file: &'a [u8]) -> Opened<'a> {
        Opened { file, passed: stages_1_to_9(file) }
    }

    /// Document 01: without stage 9 "its refusal of the check is then that of stages 1 to 8".
    pub fn without_stage_9(file: &'a [u8]) -> Opened<'a> {
        Opened { file, passed: stages_1_to_8(file) }
    }

    pub fn cell(&self, spot: Spot) -> Cell {
        self.cell_with(spot, NO_COMPRESSOR)
    }

    /// Req 01: "the caller names the compressor index".
    pub fn cell_with(&self, spot: Spot, compressor: u32) -> Cell {
        match &self.passed {
            Ok(passed) => cell(self.file, passed, spot, compressor),
            Err(refusal) => Cell::Refused(*refusal),
        }
    }

    /// Every cell of an element in a tile.
    pub fn cells_with(&self, tile: u64, element: u64, compressor: u32) -> Cells {
        match &self.passed {
            Ok(passed) => cells(self.file, passed, tile, element, compressor),
            Err(refusal) => Cells::Refused(*refusal),
        }
    }

    /// Cells of one tile, 0 where the file is refused.
    pub fn tile_cells(&self) -> usize {
        let cells = |header: &Header| header.tile_rows * header.tile_columns;
        self.passed.as_ref().map_or(0, |passed| cells(&passed.header) as usize)
    }

    pub fn content(&self, tile: u64, element: u64) -> Content {
        match &self.passed {
            Ok(passed) => content(passed, tile, element),
            Err(refusal) => Content::Refused(*refusal),
        }
    }
}

/// Document 01: "Outside the grid it is 10, place 0. If no record after the header is a tile record
/// with the cell's tile index, it is fill [..] Otherwise the record that is one decides."
fn cell(file: &[u8], passed: &Passed, spot: Spot, compressor: u32) -> Cell {
    let header = &passed.header;
    let Some(element) = element(header, spot.element) else {
        return Cell::Refused((10, 0));
    };
    if spot.row >= header.grid_rows || spot.column >= header.grid_columns {
        return Cell::Refused((10, 0));
    }
    let type_code = element.type_code;
    let (tile, inside) = (tile_of(header, spot), number_inside(header, spot));
    let location = Location { tile, inside };
    let Some(record) = tile_record(passed, tile) else {
        return Cell::Fill { type_code, bits: element.fill, location };
    };
    let part = part_of(header, record, spot.element as usize);
    if is_compressed(header, element, &part) {
        let content = &file[part.start..part.start + part.length];
        return match unpacked(content, header, element, compressor) {
            Ok(cells) => {
                let bits = cells[inside as usize];
                Cell::Unpacked { type_code, bits, place: part.start as u64, location }
            }
            Err(number) => Cell::Refused((number, record.start as u64)),
        };
    }
    let place = part.start as u64 + inside * element.cell_size();
    Cell::Stored { type_code, bits: bits_at(file, element, place as usize), place, location }
}

/// Refused as a cell read is.
pub(super) fn cells(
    file: &[u8],
    passed: &Passed,
    tile: u64,
    element_number: u64,
    compressor: u32,
) -> Cells {
    let header = &passed.header;
    let Some(element) = element(header, element_number) else {
        return Cells::Refused((10, 0));
    };
    if tile >= tile_count(header) {
        return Cells::Refused((10, 0));
    }
    let Some(record) = tile_record(passed, tile) else {
        return Cells::Absent;
    };
    let part = part_of(header, record, element_number as usize);
    let start = part.start as u64;
    let content = &file[part.start..part.start + part.length];
    if is_compressed(header, element, &part) {
        return match unpacked(content, header, element, compressor) {
            Ok(bits) => Cells::Unpacked { start, bits },
            Err(number) => Cells::Refused((number, record.start as u64)),
        };
    }
    let places = (0..content.len()).step_by(element.cell_size() as usize);
    Cells::Stored { start, bits: places.map(|at| bits_at(content, element, at)).collect() }
}

/// The bits of every cell of compressed content. Req 01: "Any other index, or a Float element, is
/// still 11", whatever else stands there (reading 13). "Malformed content, or a Short out of range,
/// is new refusal 14".
fn unpacked(
    content: &[u8],
    header: &Header,
    element: &Element,
    compressor: u32,
) -> Result<Vec<u32>, u32> {
    if element.type_code == FLOAT || u32::from(content[0]) != compressor {
        return Err(11);
    }
    let shape = Shape {
        rows: header.tile_rows as usize,
        columns: header.tile_columns as usize,
        short: element.cell_size() == 2,
    };
    let cells = unpack(content, shape).ok_or(14u32)?;
    let mask = if shape.short { 0xffff } else { u32::MAX };
    Ok(cells.into_iter().map(|cell| cell as u32 & mask).collect())
}

/// Document 01: "The uncompressed content of one element, by tile index and element number [..]
/// refused as a cell read is". Its U bytes, without padding (reading 21).
fn content(passed: &Passed, tile: u64, element_number: u64) -> Content {
    let header = &passed.header;
    let Some(element) = element(header, element_number) else {
        return Content::Refused((10, 0));
    };
    if tile >= tile_count(header) {
        return Content::Refused((10, 0));
    }
    let Some(record) = tile_record(passed, tile) else {
        return Content::Absent;
    };
    let part = part_of(header, record, element_number as usize);
    if is_compressed(header, element, &part) {
        return Content::Refused((11, record.start as u64));
    }
    Content::Present { start: part.start as u64, length: part.length as u64 }
}

pub(super) fn element(header: &Header, number: u64) -> Option<&Element> {
    header.elements.get(usize::try_from(number).ok()?)
}

/// Document 01: "Cell (r, c) is in tile (r / tile rows) × across + (c / tile columns)."
pub(super) fn tile_of(header: &Header, spot: Spot) -> u64 {
    spot.row / header.tile_rows * tiles_across(header) + spot.column / header.tile_columns
}

/// Document 01: "Its number inside is (r mod tile rows) × tile columns + (c mod tile columns)."
pub(super) fn number_inside(header: &Header, spot: Spot) -> u64 {
    spot.row % header.tile_rows * header.tile_columns + spot.column % header.tile_columns
}

/// The first tile record with that index (reading 19). An accepted file has no second.
fn tile_record<'r, 'a>(passed: &'r Passed<'a>, index: u64) -> Option<&'r Record<'a>> {
    let carries_index = |record: &&Record| {
        record.record_type == TILE && record.reader().count() == Some(index as usize)
    };
    passed.records.iter().find(carries_index)
}

/// What a tile record stores of one element: the position of its L bytes in the file, and L.
pub(super) struct Part {
    pub start: usize,
    pub length: usize,
}

/// Document 01: content begins 4 bytes after the start of its length field; the next length stands
/// behind 0 to 3 bytes of padding. Stage 8 has passed, so every field is there.
pub(super) fn part_of(header: &Header, record: &Record, element: usize) -> Part {
    let mut reader = record.reader();
    let mut part = Part { start: 0, length: 0 };
    reader.integer().expect("a tile index");
    for _ in &header.elements[..=element] {
        part.length = reader.count().expect("a length");
        part.start = record.start + reader.at();
        reader.take(part.length).expect("L bytes");
        reader.fill_to_four().expect("padding");
    }
    part
}

/// Document 01: "L equal to U means uncompressed, less means compressed."
pub(super) fn is_compressed(header: &Header, element: &Element, part: &Part) -> bool {
    (part.length as u128) < uncompressed_size(header, element.cell_size())
}

/// Document 01: "the 2 or 4 bytes from there are its bytes and give its bits", little-endian.
fn bits_at(file: &[u8], element: &Element, place: usize) -> u32 {
    let bits = match element.cell_size() {
        2 => short_at(file, place).map(u32::from),
        _ => integer_at(file, place),
    };
    bits.expect("a stored cell lies inside its record")
}
