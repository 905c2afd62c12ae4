//! The listing of a file (document 01, 'The listing').

use super::chain::TILE;
use super::check::{stages_1_to_9, Answer, Passed};
use super::geometry::tile_count;

/// Document 01: "a file over 65,536 bytes the single line `too long`".
pub const LONGEST_LISTED: usize = 65_536;

/// `too long` comes before any check, and each line ends with a newline (reading 23).
pub fn listing(file: &[u8]) -> String {
    if file.len() > LONGEST_LISTED {
        return "too long\n".to_string();
    }
    match stages_1_to_9(file) {
        Ok(passed) => of_accepted(&passed),
        Err(refusal) => of_refused(refusal),
    }
}

/// Document 01: "A wrong version gives the single line `refused 2 at 0`", other refusals likewise
/// (reading 23).
fn of_refused((number, place): Answer) -> String {
    format!("refused {number} at {place}\n")
}

/// Document 01: "Sides as rows then columns, one number line for each tile record in index order."
fn of_accepted(passed: &Passed) -> String {
    let header = &passed.header;
    let indexes = tile_indexes(passed);
    let mut lines = vec![
        format!("grid {} {}", header.grid_rows, header.grid_columns),
        format!("tile {} {}", header.tile_rows, header.tile_columns),
        format!("elements {}", header.element_count),
        format!("written {} of {}", indexes.len(), tile_count(header)),
    ];
    lines.extend(indexes.iter().map(u32::to_string));
    lines.into_iter().map(|line| line + "\n").collect()
}

/// The indexes of the tile records in the chain, in rising order.
fn tile_indexes(passed: &Passed) -> Vec<u32> {
    let tiles = passed.records.iter().filter(|record| record.record_type == TILE);
    let mut indexes: Vec<u32> =
        tiles.map(|record| record.reader().integer().expect("a tile index")).collect();
    indexes.sort();
    indexes
}
