//! A page open for writing: what every call of a correction but opening has to find (Req 03).

use super::chain::{Record, FILE_SPACE_DIRECTORY, FREE};
use super::check::{stages_1_to_4, stages_6_to_8, Passed};
use super::directories::{
    metadata_directory_is_good, no_other_directory, sides_listed, tile_directory_is_good,
};
use super::geometry::{tiles_across, tiles_down};
use super::header::{is_opened, Header};

/// Req 03: "opened time set, else as the check wants, but no file-space directory, a full tile
/// directory, nothing left to join". `None` is refusal 15.
pub fn open_page(page: &[u8]) -> Option<Passed<'_>> {
    let header = stages_1_to_4(page).ok()?;
    if !is_opened(&header) {
        return None;
    }
    let records = stages_6_to_8(page, &header).ok()?;
    let open = no_file_space_directory(&header, &records)
        && no_other_directory(&header, &records)
        && tile_directory_is_good(&header, &records)
        && metadata_directory_is_good(&header, &records)
        && tile_directory_is_full(&header, &records)
        && nothing_left_to_join(&records);
    open.then_some(Passed { header, records })
}

pub fn is_open(page: &[u8]) -> bool {
    open_page(page).is_some()
}

/// The reference is zero, and no record has type 3. Free records are listed nowhere (Req 03, reading
/// 18).
fn no_file_space_directory(header: &Header, records: &[Record]) -> bool {
    let is_one = |record: &Record| record.record_type == FILE_SPACE_DIRECTORY;
    header.file_space_reference == 0 && !records.iter().any(is_one)
}

/// It lists every tile of the grid: as many rows as tiles down, as many columns as tiles across
/// (Req 03, reading 6).
pub(super) fn tile_directory_is_full(header: &Header, records: &[Record]) -> bool {
    sides_listed(header, records) == Some((tiles_down(header), tiles_across(header)))
}

/// No two free records adjoin.
fn nothing_left_to_join(records: &[Record]) -> bool {
    let both_free = |pair: &[Record]| pair.iter().all(|record| record.record_type == FREE);
    !records.windows(2).any(both_free)
}
