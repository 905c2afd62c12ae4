//! Records and their chain: refusal 6.

use super::fields::{count_at, Reader};
use super::header::{Header, HEADER_START};

pub const FREE: u8 = 0;
pub const METADATA: u8 = 1;
pub const TILE: u8 = 2;
pub const FILE_SPACE_DIRECTORY: u8 = 3;
pub const METADATA_DIRECTORY: u8 = 4;
pub const TILE_DIRECTORY: u8 = 5;
pub const HEADER: u8 = 6;

/// One record (G section 3.3): length, type, three reserved bytes, content, checksum.
#[derive(Clone, Copy)]
pub struct Record<'a> {
    pub start: usize,
    pub record_type: u8,
    pub bytes: &'a [u8],
}

impl<'a> Record<'a> {
    pub fn length(&self) -> usize {
        self.bytes.len()
    }

    /// What a reference to the record holds: the position of its content (G section 3.3.4).
    pub fn content(&self) -> u64 {
        self.start as u64 + 8
    }

    /// All but the checksum: a field fits if it ends at or before the record's last four bytes.
    pub fn before_checksum(&self) -> &'a [u8] {
        &self.bytes[..self.bytes.len() - 4]
    }

    /// Reads fields from the record's content on.
    pub fn reader(&self) -> Reader<'a> {
        Reader::new(self.before_checksum(), 8)
    }
}

/// The header record of a file that passes stage 3.
pub fn header_record<'a>(file: &'a [u8], header: &Header) -> Record<'a> {
    Record { start: HEADER_START, record_type: HEADER, bytes: &file[HEADER_START..header.end] }
}

/// Document 01, stage 6: "Records follow the header without a gap up to the last byte."
/// The records, or the start of the first bad one.
pub fn chain<'a>(file: &'a [u8], header: &Header) -> Result<Vec<Record<'a>>, usize> {
    let mut records = Vec::new();
    let mut start = header.end;
    while start < file.len() {
        let record = record_at(file, start).ok_or(start)?;
        start += record.length();
        records.push(record);
    }
    Ok(records)
}

/// Document 01, stage 6: "A length is a multiple of 8, at least 16, and ends inside the file."
/// Where fewer than 16 bytes are left no length does (reading 11).
fn record_at(file: &[u8], start: usize) -> Option<Record<'_>> {
    let length = count_at(file, start)?;
    let record_type = *file.get(start + 4)?;
    let bytes = file.get(start..start + length)?;
    let good = length_is_good(length) && type_is_good(record_type);
    good.then_some(Record { start, record_type, bytes })
}

fn length_is_good(length: usize) -> bool {
    length.is_multiple_of(8) && length >= 16
}

/// Document 01, stage 6: "Types are 0 to 5; a second header is a fault."
fn type_is_good(record_type: u8) -> bool {
    record_type <= 5
}
