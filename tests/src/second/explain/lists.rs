//! Stage 9: the metadata directory and the file-space directory: rules 60 to 75.

use std::collections::{HashMap, HashSet};
use std::hash::Hash;

use super::directories::{padded, Referred};
use super::records::{Chain, Metadata, Record};
use super::{asked, Bytes, Kept};
use crate::second::chain::{FILE_SPACE_DIRECTORY, FREE, METADATA, METADATA_DIRECTORY};

/// Where the header has the references.
const FILE_SPACE_AT: u64 = 56;
const METADATA_AT: u64 = 64;

/// Position, name, record ID and data type.
type MetadataEntry<'a> = (u64, &'a [u8], u64, u64);

/// Rules 60 to 67.
pub fn metadata(file: Bytes, chain: &Chain) -> Kept {
    let referred = Referred::read(file, METADATA_DIRECTORY, METADATA_AT);
    let reference = referred.reference;
    referred.is_of_one(60, chain, true)?;
    referred.no_other(61, chain)?;
    let mut listed = Vec::new();
    if let Some(record) = referred.record(chain) {
        let count = file.integer(reference);
        asked(62, 0, reference).not_negative(count)?;
        let end = metadata_end(file, &record, count);
        padded(63, &record, end)?;
        listed = metadata_listed(file, reference + 4, count);
    }
    let records = chain.of_type(METADATA);
    let own = |record: &Record| metadata_entry(file, record);
    let stored: Vec<MetadataEntry> = records.iter().map(own).collect();
    listed_once(65, reference, &listed, &records, &stored)?;
    let mut keys = HashSet::new();
    let distinct = stored.iter().all(|(_, name, id, _)| keys.insert((*name, *id)));
    asked(67, 0, reference).holds(distinct, 0, 0)
}

/// An entry that starts behind the checksum's start is not read, and reading stops there.
fn metadata_end(file: Bytes, record: &Record, count: u64) -> u64 {
    let mut at = record.content() + 4;
    for _ in 0..count {
        if at > record.limit() {
            break;
        }
        at = behind_entry(file, at);
    }
    at
}

/// G Table 20: position, name, record ID and type code.
fn behind_entry(file: Bytes, at: u64) -> u64 {
    file.text(at + 8).end() + 5
}

/// The entries of a list that fits its record.
fn metadata_listed<'a>(file: Bytes<'a>, first: u64, count: u64) -> Vec<MetadataEntry<'a>> {
    let mut at = first;
    let mut listed = Vec::new();
    for _ in 0..count {
        let name = file.text(at + 8);
        let (id, data_type) = (file.integer(name.end()), file.byte(name.end() + 4));
        listed.push((file.long(at), file.bytes_of(name), id, data_type));
        at = behind_entry(file, at);
    }
    listed
}

fn metadata_entry<'a>(file: Bytes<'a>, record: &Record) -> MetadataEntry<'a> {
    let is = Metadata::read(file, record);
    (record.content(), file.bytes_of(is.name), is.id, is.data_type)
}

/// Rules 68 to 75.
pub fn file_space(file: Bytes, chain: &Chain) -> Kept {
    let referred = Referred::read(file, FILE_SPACE_DIRECTORY, FILE_SPACE_AT);
    let reference = referred.reference;
    referred.is_of_one(68, chain, true)?;
    referred.no_other(69, chain)?;
    let mut listed = Vec::new();
    if let Some(record) = referred.record(chain) {
        let count = file.integer(reference);
        asked(70, 0, reference).at_least(count, 1)?;
        asked(71, 0, reference).not_negative(count)?;
        padded(72, &record, reference + 4 + 12 * count)?;
        let entry = |at: u64| (file.long(at), file.integer(at + 8));
        listed = (0..count).map(|number| entry(reference + 4 + 12 * number)).collect();
    }
    let records = chain.of_type(FREE);
    let stored: Vec<(u64, u64)> = records.iter().map(|is| (is.start, is.length)).collect();
    listed_once(74, reference, &listed, &records, &stored)
}

/// Two rules: as many entries as records, and each record has one entry that is its own.
fn listed_once<Entry: Eq + Hash + Copy>(
    rule: u64,
    reference: u64,
    listed: &[Entry],
    records: &[Record],
    stored: &[Entry],
) -> Kept {
    asked(rule, 0, reference).equal(listed.len() as u64, records.len() as u64)?;
    let mut times: HashMap<Entry, u64> = HashMap::new();
    for entry in listed {
        *times.entry(*entry).or_default() += 1;
    }
    for (number, (record, own)) in (0..).zip(records.iter().zip(stored)) {
        let found = times.get(own).copied().unwrap_or(0);
        asked(rule + 1, number, record.start).equal(found, 1)?;
    }
    Ok(())
}
