//! Checksums of records: refusal 7.

use super::chain::{Record, FREE};
use super::crc32c::crc32c;
use super::fields::integer_at;

/// Document 01, refusal 7: "start of the first such record, the header included".
pub fn first_bad_checksum(header: Record, records: &[Record], on: bool) -> Option<usize> {
    if !checksum_is_good(&header, on) {
        return Some(header.start);
    }
    records.iter().find(|record| !checksum_is_good(record, on)).map(|record| record.start)
}

/// Document 01, stage 7: the last four bytes are the CRC32C if checksums are on, zero if off.
fn checksum_is_good(record: &Record, on: bool) -> bool {
    let stored = integer_at(record.bytes, record.length() - 4);
    let wanted = if on { crc32c(summed_bytes(record)) } else { 0 };
    stored == Some(wanted)
}

/// Document 01, stage 7: "of all earlier bytes of the record. A free-space record's is of its first
/// eight bytes only."
fn summed_bytes<'a>(record: &Record<'a>) -> &'a [u8] {
    if record.record_type == FREE {
        &record.bytes[..8]
    } else {
        record.before_checksum()
    }
}
