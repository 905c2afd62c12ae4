//! The three directories: refusal 9 (G Tables 17 to 21). Stages 6 and 8 have passed.

use std::collections::HashMap;

use super::bodies::{metadata_body, tile_body};
use super::chain::{
    Record, FILE_SPACE_DIRECTORY, FREE, METADATA, METADATA_DIRECTORY, TILE, TILE_DIRECTORY,
};
use super::geometry::{tiles_across, tiles_down};
use super::header::Header;

/// Document 01, stage 9.
pub fn directories_are_good(header: &Header, records: &[Record]) -> bool {
    no_other_directory(header, records)
        && tile_directory_is_good(header, records)
        && metadata_directory_is_good(header, records)
        && file_space_directory_is_good(header, records)
}

/// Document 01, stage 9: "No other record of types 3 to 5 exists."
pub(super) fn no_other_directory(header: &Header, records: &[Record]) -> bool {
    records.iter().all(|record| match record.record_type {
        FILE_SPACE_DIRECTORY => record.content() == header.file_space_reference,
        METADATA_DIRECTORY => record.content() == header.metadata_reference,
        TILE_DIRECTORY => record.content() == header.tile_directory_reference,
        _ => true,
    })
}

/// The record of that type whose content (start plus 8) the reference is.
fn referred<'r, 'a>(
    records: &'r [Record<'a>],
    reference: u64,
    record_type: u8,
) -> Option<&'r Record<'a>> {
    let at = records.binary_search_by_key(&reference, Record::content).ok()?;
    let record = &records[at];
    (record.record_type == record_type).then_some(record)
}

fn of_type<'r, 'a>(
    records: &'r [Record<'a>],
    record_type: u8,
) -> impl Iterator<Item = &'r Record<'a>> {
    records.iter().filter(move |record| record.record_type == record_type)
}

// The tile directory.

/// Document 01, stage 9: "The tile directory reference is the content (start plus 8) of a record of
/// type 5."
pub(super) fn tile_directory_is_good(header: &Header, records: &[Record]) -> bool {
    let Some(record) = referred(records, header.tile_directory_reference, TILE_DIRECTORY) else {
        return false;
    };
    let Some(listed) = tile_references(header, record) else {
        return false;
    };
    let stored = tile_contents(header, records);
    every_reference_is_a_tile(&listed, &stored) && every_tile_is_listed(&listed, &stored)
}

/// A tile index and the position of a tile record's content.
type Listed = (u64, u64);

/// The references that are not zero, each with the tile index of its place in the rectangle, row by
/// row (G Table 21, reading 16). `None` where a rule of the record itself is broken.
fn tile_references(header: &Header, record: &Record) -> Option<Vec<Listed>> {
    let mut reader = record.reader();
    let format = reader.byte()?;
    let standard = reader.byte()?;
    let _reserved = reader.take(6)?;
    let row0 = reader.count()? as u64;
    let column0 = reader.count()? as u64;
    let rows = reader.count()? as u64;
    let columns = reader.count()? as u64;
    let across = tiles_across(header);
    let good = forms_are_printed(format, standard)
        && ends_inside(row0, rows, tiles_down(header))
        && ends_inside(column0, columns, across);
    if !good {
        return None;
    }
    let mut listed = Vec::new();
    for row in row0..row0 + rows {
        for column in column0..column0 + columns {
            let reference = if standard == 1 { reader.long()? } else { compact(reader.integer()?) };
            if reference != 0 {
                listed.push((row * across + column, reference));
            }
        }
    }
    (reader.left() <= 7).then_some(listed)
}

/// Document 01, stage 9: "A field there that picks the form of reference has a printed value". G
/// section 4.2.8: the format code is always zero (reading 15).
fn forms_are_printed(format: u8, standard: u8) -> bool {
    format == 0 && standard <= 1
}

/// Document 01, stage 9: the rectangle "has no negative start or side and ends inside the tile
/// grid", each direction by itself (reading 16).
fn ends_inside(start: u64, side: u64, tiles: u64) -> bool {
    start + side <= tiles
}

/// Rows and columns of tiles that the tile directory lists. Its own rules have been judged.
pub(super) fn sides_listed(header: &Header, records: &[Record]) -> Option<(u64, u64)> {
    let record = referred(records, header.tile_directory_reference, TILE_DIRECTORY)?;
    let mut reader = record.reader();
    let _forms_reserved_and_starts = reader.take(16)?;
    Some((reader.count()? as u64, reader.count()? as u64))
}

/// A compact reference is the position divided by eight (G section 4.2.8).
fn compact(reference: u32) -> u64 {
    u64::from(reference) * 8
}

/// Each tile record's index and content.
fn tile_contents(header: &Header, records: &[Record]) -> Vec<Listed> {
    let index_of = |record: &Record| Some((tile_body(header, record)?, record.content()));
    of_type(records, TILE).filter_map(index_of).collect()
}

/// Document 01, stage 9: "every reference there that is not zero is the content of a tile record
/// with that same index".
fn every_reference_is_a_tile(listed: &[Listed], stored: &[Listed]) -> bool {
    let index_at: HashMap<u64, u64> = stored.iter().map(|(index, at)| (*at, *index)).collect();
    listed.iter().all(|(index, at)| index_at.get(at) == Some(index))
}

/// Document 01, stage 9: "Every tile record is listed at its own index". One place holds one
/// reference, so two tile records with one index are never both listed (reading 19).
fn every_tile_is_listed(listed: &[Listed], stored: &[Listed]) -> bool {
    let listed_at: HashMap<u64, u64> = listed.iter().copied().collect();
    stored.iter().all(|(index, at)| listed_at.get(index) == Some(at))
}

// The metadata directory.

/// Position, name, record ID and type code (G Table 20, reading 18).
type MetadataEntry<'a> = (u64, &'a [u8], u32, u8);

/// Document 01, stage 9: "The other two may be zero; else they are the content of a record of type
/// 4 (metadata)".
pub(super) fn metadata_directory_is_good(header: &Header, records: &[Record]) -> bool {
    let stored = metadata_stored(records);
    let listed = if header.metadata_reference == 0 {
        Some(Vec::new())
    } else {
        referred(records, header.metadata_reference, METADATA_DIRECTORY).and_then(metadata_listed)
    };
    match listed {
        Some(listed) => same_entries(listed, stored.clone()) && keys_distinct(&stored),
        None => false,
    }
}

/// Document 01, stage 9: "Counts fit their record with 0 to 7 padding bytes." G Table 19: a count
/// of 0 or larger.
fn metadata_listed<'a>(record: &Record<'a>) -> Option<Vec<MetadataEntry<'a>>> {
    let mut reader = record.reader();
    let count = reader.count()?;
    let mut entries = Vec::new();
    for _ in 0..count {
        let position = reader.long()?;
        let name = reader.string()?;
        let id = reader.integer()?;
        let type_code = reader.byte()?;
        entries.push((position, name, id, type_code));
    }
    (reader.left() <= 7).then_some(entries)
}

fn metadata_stored<'a>(records: &[Record<'a>]) -> Vec<MetadataEntry<'a>> {
    let entry = |record: &Record<'a>| {
        let metadata = metadata_body(record)?;
        Some((record.content(), metadata.name, metadata.id, metadata.data_type))
    };
    of_type(records, METADATA).filter_map(entry).collect()
}

/// Document 01, stage 9: every record "is listed once [..] and nothing else is". In any order
/// (reading 18).
fn same_entries<Entry: Ord>(mut listed: Vec<Entry>, mut stored: Vec<Entry>) -> bool {
    listed.sort_unstable();
    stored.sort_unstable();
    listed == stored
}

/// Document 01, stage 9: "no two have the same pair of name and ID".
fn keys_distinct(stored: &[MetadataEntry]) -> bool {
    let mut keys: Vec<(&[u8], u32)> = stored.iter().map(|(_, name, id, _)| (*name, *id)).collect();
    keys.sort_unstable();
    keys.windows(2).all(|pair| pair[0] != pair[1])
}

// The file-space directory.

/// Start and size of a free record (G Table 18).
type FreeEntry = (u64, u32);

/// Document 01, stage 9: "The other two may be zero; else they are the content of a record of [..]
/// 3 (file space)."
fn file_space_directory_is_good(header: &Header, records: &[Record]) -> bool {
    let stored = free_stored(records);
    if header.file_space_reference == 0 {
        return stored.is_empty();
    }
    let record = referred(records, header.file_space_reference, FILE_SPACE_DIRECTORY);
    match record.and_then(free_listed) {
        Some(listed) => same_entries(listed, stored),
        None => false,
    }
}

/// Document 01, stage 9: "Counts fit their record with 0 to 7 padding bytes"; "a file-space
/// directory has at least one".
fn free_listed(record: &Record) -> Option<Vec<FreeEntry>> {
    let mut reader = record.reader();
    let count = reader.count()?;
    let mut entries = Vec::new();
    for _ in 0..count {
        entries.push((reader.long()?, reader.integer()?));
    }
    (count >= 1 && reader.left() <= 7).then_some(entries)
}

/// Document 01, stage 9: "Every free record is listed once, by its own start and size". The size is
/// the record's whole length (reading 18).
fn free_stored(records: &[Record]) -> Vec<FreeEntry> {
    let entry = |record: &Record| (record.start as u64, record.length() as u32);
    of_type(records, FREE).map(entry).collect()
}
