//! Stages 6 to 8: rules 33 to 48.

use super::head::Head;
use super::{asked, refused, Bytes, Explained, Fault, Kept, Text};
use crate::second::chain::{FREE, METADATA, TILE};
use crate::second::crc32c::crc32c;
use crate::second::names::{is_identifier, LONGEST_NAME};
use crate::second::utf8::is_utf8;

/// A record behind the header, or the header.
#[derive(Clone, Copy)]
pub struct Record {
    pub start: u64,
    pub length: u64,
    pub record_type: u8,
}

impl Record {
    /// What a reference to it holds.
    pub fn content(&self) -> u64 {
        self.start + 8
    }

    /// The position of its checksum.
    pub fn limit(&self) -> u64 {
        self.start + self.length - 4
    }
}

/// The header, then the records behind it.
pub struct Chain {
    header: Record,
    pub records: Vec<Record>,
}

impl Chain {
    /// Stage 6.
    pub fn read(file: Bytes, head: &Head) -> Result<Chain, Explained> {
        let header = Record { start: 16, length: head.end - 16, record_type: 6 };
        let mut chain = Chain { header, records: Vec::new() };
        let mut start = head.end;
        while start < file.length() {
            let before = chain.records.len() as u64;
            let record = record(file, before, start).map_err(refused(6, start))?;
            start += record.length;
            chain.records.push(record);
        }
        Ok(chain)
    }

    /// Stage 7: the header is 0, the next 1.
    pub fn checksums(&self, file: Bytes) -> Result<(), Explained> {
        let all = [self.header].into_iter().chain(self.records.iter().copied());
        for (number, record) in (0..).zip(all) {
            let kept = checksum(file, number, &record);
            kept.map_err(refused(7, record.start))?;
        }
        Ok(())
    }

    /// Stage 8.
    pub fn bodies(&self, file: Bytes, head: &Head) -> Result<(), Explained> {
        for (number, record) in (0..).zip(&self.records) {
            let kept = match record.record_type {
                TILE => tile(file, number, record, head),
                METADATA => metadata(file, number, record),
                _ => Ok(()),
            };
            kept.map_err(refused(8, record.start))?;
        }
        Ok(())
    }

    /// The records of a type.
    pub fn of_type(&self, record_type: u8) -> Vec<Record> {
        let wanted = |record: &&Record| record.record_type == record_type;
        self.records.iter().filter(wanted).copied().collect()
    }
}

/// Rules 33 to 37.
fn record(file: Bytes, number: u64, start: u64) -> Result<Record, Fault> {
    let length = file.integer(start);
    let record_type = file.byte(start + 4);
    asked(33, number, start).at_least(length, 16)?;
    asked(34, number, start).not_negative(length)?;
    asked(35, number, start).multiple_of_8(length)?;
    asked(36, number, start).at_most(start + length, file.length())?;
    asked(37, number, start + 4).at_most(record_type, 5)?;
    Ok(Record { start, length, record_type: record_type as u8 })
}

/// Rule 38.
fn checksum(file: Bytes, number: u64, record: &Record) -> Kept {
    let stored = file.integer(record.limit());
    let summed = if record.record_type == FREE { record.start + 8 } else { record.limit() };
    let bytes = Text { at: record.start, length: summed - record.start };
    let on = file.byte(128) == 1;
    let right = if on { u64::from(crc32c(file.bytes_of(bytes))) } else { 0 };
    asked(38, number, record.limit()).equal(stored, right)
}

/// Rules 41 and 42, of fields that end there.
fn fits(number: u64, record: &Record, end: u64) -> Kept {
    asked(41, number, record.start).at_most(end, record.limit())?;
    let least = (end + 4 - record.start).next_multiple_of(8);
    asked(42, number, record.start).equal(record.length, least)
}

/// Rules 39 to 44. A section that starts behind the checksum's start is not read.
fn tile(file: Bytes, number: u64, record: &Record, head: &Head) -> Kept {
    let index = file.integer(record.content());
    asked(39, number, record.content()).not_negative(index)?;
    asked(40, number, record.content()).at_most(index + 1, head.tiles())?;
    let mut lengths = Vec::new();
    let mut at = record.content() + 4;
    for entry in &head.entries.list {
        if at > record.limit() {
            break;
        }
        let length = file.integer(at);
        lengths.push((at, length, head.uncompressed(entry.type_code) as u64));
        at = (at + 4 + length).next_multiple_of(4);
    }
    fits(number, record, at)?;
    for (element, (at, length, uncompressed)) in (0..).zip(lengths) {
        asked(43, element, at).at_least(length, 1)?;
        asked(44, element, at).at_most(length, uncompressed)?;
    }
    Ok(())
}

/// Where the fields of a metadata record stand (G Table 14).
pub struct Metadata {
    pub name: Text,
    pub id: u64,
    type_at: u64,
    pub data_type: u64,
    length_at: u64,
    content_length: u64,
    description: Text,
}

impl Metadata {
    pub fn read(file: Bytes, record: &Record) -> Metadata {
        let name = file.text(record.content());
        let type_at = name.end() + 4;
        let length_at = type_at + 1;
        let content_length = file.integer(length_at);
        Metadata {
            name,
            id: file.integer(name.end()),
            type_at,
            data_type: file.byte(type_at),
            length_at,
            content_length,
            description: file.text(length_at + 4 + content_length),
        }
    }
}

/// Rules 45, 41, 42 and 46 to 48. The description is always read.
fn metadata(file: Bytes, number: u64, record: &Record) -> Kept {
    let is = Metadata::read(file, record);
    asked(45, number, is.length_at).not_negative(is.content_length)?;
    fits(number, record, is.description.end())?;
    let named = is_identifier(file.bytes_of(is.name), LONGEST_NAME);
    asked(46, number, is.name.at).holds(named, is.name.length, 32)?;
    asked(47, number, is.type_at).at_most(is.data_type, 9)?;
    let good = is_utf8(file.bytes_of(is.description));
    asked(48, number, is.description.at).holds(good, is.description.length, 0)
}
