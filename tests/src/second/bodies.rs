//! Bodies of tile and metadata records: refusal 8 (G Tables 14 to 16).

use super::chain::{Record, METADATA, TILE};
use super::fields::Span;
use super::geometry::{least_record_length, tile_count, uncompressed_size};
use super::header::Header;
use super::names::{is_identifier, LONGEST_NAME};
use super::utf8::is_utf8;

/// What a metadata record says. Its directory repeats name, ID and data type.
pub struct Metadata<'a> {
    pub name: &'a [u8],
    pub id: u32,
    pub data_type: u8,
    pub name_span: Span,
    pub content: Span,
    pub description: Span,
}

/// Document 01, refusal 8: "start of the first such record", tiles and metadata together in file
/// order (reading 13).
pub fn first_bad_body(header: &Header, records: &[Record]) -> Option<usize> {
    let bad = |record: &&Record| !body_is_good(header, record);
    records.iter().find(bad).map(|record| record.start)
}

fn body_is_good(header: &Header, record: &Record) -> bool {
    match record.record_type {
        TILE => tile_body(header, record).is_some(),
        METADATA => metadata_body(record).is_some(),
        _ => true,
    }
}

/// Document 01, stage 8: "A tile record has a tile index, at least 0 and below the tile count. For
/// each element in order come a length L, L bytes, and 0 to 3 bytes that bring L to a multiple of
/// 4." Gives the index.
pub fn tile_body(header: &Header, record: &Record) -> Option<u64> {
    let mut reader = record.reader();
    let index = reader.count()? as u64;
    for element in &header.elements {
        let length = reader.count()?;
        let uncompressed = uncompressed_size(header, element.cell_size());
        if !content_length_is_good(length, uncompressed) {
            return None;
        }
        reader.take(length)?;
        reader.fill_to_four()?;
    }
    let good = index < tile_count(header) && has_least_length(record, reader.at());
    good.then_some(index)
}

/// Document 01, stage 8: "L is from 1 to U".
fn content_length_is_good(length: usize, uncompressed: u128) -> bool {
    length >= 1 && length as u128 <= uncompressed
}

/// Document 01, stage 8: "The record length is the least multiple of 8 that holds this and the
/// checksum."
fn has_least_length(record: &Record, without_checksum: usize) -> bool {
    record.length() == least_record_length(without_checksum)
}

/// Document 01, stage 8: "A metadata record has the fields of Table 14, a name that is an
/// identifier of at most 32 characters, a data type from 0 to 9, a content length not negative, and
/// the least such length too." The description is UTF-8, and the content anything (Req 06).
pub fn metadata_body<'a>(record: &Record<'a>) -> Option<Metadata<'a>> {
    let mut reader = record.reader();
    let name = reader.string()?;
    let name_span = reader.last(record.start, name);
    let id = reader.integer()?;
    let data_type = reader.byte()?;
    let content_length = reader.count()?;
    let content = reader.take(content_length)?;
    let content = reader.last(record.start, content);
    let text = reader.string()?;
    let description = reader.last(record.start, text);
    let good = is_identifier(name, LONGEST_NAME)
        && data_type <= 9
        && is_utf8(text)
        && has_least_length(record, reader.at());
    good.then_some(Metadata { name, id, data_type, name_span, content, description })
}
