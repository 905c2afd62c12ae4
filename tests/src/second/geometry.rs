//! Sizes and counts of tiles (document 01, 'Finding a cell' and stage 8).

use super::header::Header;

/// Tiles across = grid columns divided by tile columns, rounded up.
pub fn tiles_across(header: &Header) -> u64 {
    header.grid_columns.div_ceil(header.tile_columns)
}

/// Tiles down likewise.
pub fn tiles_down(header: &Header) -> u64 {
    header.grid_rows.div_ceil(header.tile_rows)
}

pub fn tile_count(header: &Header) -> u64 {
    tiles_across(header) * tiles_down(header)
}

/// U: tile rows times tile columns times 4, or times 2 for Short (document 01, stage 8).
pub fn uncompressed_size(header: &Header, cell_size: u64) -> u128 {
    u128::from(header.tile_rows) * u128::from(header.tile_columns) * u128::from(cell_size)
}

/// Uncompressed bytes of one tile, all elements together: U without length fields and padding
/// (reading 8).
pub fn tile_bytes(header: &Header) -> u128 {
    let sizes =
        header.elements.iter().map(|element| uncompressed_size(header, element.cell_size()));
    sizes.sum()
}

/// The least multiple of 8 that holds what is given and the checksum (document 01, stage 8).
pub fn least_record_length(without_checksum: usize) -> usize {
    (without_checksum + 4).next_multiple_of(8)
}
