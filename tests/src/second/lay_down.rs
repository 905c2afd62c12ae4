//! Laying down a page: refusals 12 and 13 (document 01, 'Laying down a page').

use super::chain::{TILE, TILE_DIRECTORY};
use super::check::{stages_1_to_4_of_a_front, Answer};
use super::crc32c::crc32c;
use super::geometry::{
    least_record_length, tile_bytes, tile_count, tiles_across, tiles_down, uncompressed_size,
};
use super::header::{Header, FILE_CEILING, HEADER_START};

/// Document 01: "Given: a front (identification block and header record, no byte more), a time
/// modified, tile indexes, the cell bytes of those tiles one after another (all elements in order,
/// no lengths, no padding), and a buffer." All but the buffer.
#[derive(Clone, PartialEq)]
pub struct Given {
    pub front: Vec<u8>,
    pub time: u64,
    pub indexes: Vec<u32>,
    pub cells: Vec<u8>,
}

/// The file, or the refusal.
pub type Laid = Result<Vec<u8>, Answer>;

/// Into a buffer of `room` bytes. Document 01: "Then 12 [..]. Then 4 if the file would pass its
/// ceiling. Then 13 exactly if the buffer is shorter than the file."
pub fn lay_down(given: &Given, room: usize) -> Laid {
    let header = stages_1_to_4_of_a_front(&given.front)?;
    if !input_is_right(&header, given) {
        return Err((12, 0));
    }
    let file = file(&header, given);
    if file.len() > FILE_CEILING {
        return Err((4, 0));
    }
    if room < file.len() {
        return Err((13, 0));
    }
    Ok(file)
}

// The input.

/// Document 01: "12 if the time is zero, the indexes are not strictly ascending, one is not below
/// the tile count, or the byte count is not the number of indexes times tile bytes."
fn input_is_right(header: &Header, given: &Given) -> bool {
    let below_tile_count = |index: &u32| u64::from(*index) < tile_count(header);
    given.time != 0
        && given.indexes.windows(2).all(|pair| pair[0] < pair[1])
        && given.indexes.iter().all(below_tile_count)
        && given.cells.len() as u128 == given.indexes.len() as u128 * tile_bytes(header)
}

// The file.

/// Document 01: "the front [..]; one tile record for each index in order; the tile directory last".
fn file(header: &Header, given: &Given) -> Vec<u8> {
    let mut file = given.front.clone();
    let mut references = vec![0; tile_count(header) as usize];
    let mut cells = given.cells.as_slice();
    for index in &given.indexes {
        let (own, behind) = cells.split_at(tile_bytes(header) as usize);
        cells = behind;
        references[*index as usize] = content_of_the_next_record(&file);
        file.extend(tile_record(header, *index, own));
    }
    let directory = content_of_the_next_record(&file);
    file.extend(tile_directory(header, &references));
    set_front(&mut file[..header.end], given.time, directory, header.checksums_on);
    file
}

/// What a reference to the record that is laid down next holds: its start plus 8 (G section 3.3.4).
fn content_of_the_next_record(file: &[u8]) -> u64 {
    file.len() as u64 + 8
}

/// Document 01: "the front with time modified set, time opened zero, file-space and metadata
/// references zero, tile directory reference set". The rest of it stays, but for the checksum
/// (reading 22). Positions of G Table 7.
fn set_front(front: &mut [u8], time: u64, tile_directory: u64, checksums_on: bool) {
    let header = &mut front[HEADER_START..];
    header[24..32].copy_from_slice(&time.to_le_bytes());
    header[32..40].fill(0);
    header[40..48].fill(0);
    header[48..56].fill(0);
    header[64..72].copy_from_slice(&tile_directory.to_le_bytes());
    set_checksum(header, checksums_on);
}

/// G Tables 15 and 16. Each element is whole, so L is U; up to three bytes of padding behind it
/// bring L to a multiple of 4.
pub(super) fn tile_record(header: &Header, index: u32, cells: &[u8]) -> Vec<u8> {
    let mut content = index.to_le_bytes().to_vec();
    let mut cells = cells;
    for element in &header.elements {
        let uncompressed = uncompressed_size(header, element.cell_size()) as usize;
        let (own, behind) = cells.split_at(uncompressed);
        cells = behind;
        content.extend((uncompressed as u32).to_le_bytes());
        content.extend(own);
        content.extend(vec![0; uncompressed.next_multiple_of(4) - uncompressed]);
    }
    record(TILE, &content, header.checksums_on)
}

/// G Table 21. Document 01: "listing every tile of the grid with compact four-byte references". A
/// compact reference is the position divided by eight; zero stays for a tile that is not given.
pub(super) fn tile_directory(header: &Header, references: &[u64]) -> Vec<u8> {
    let (format, standard_references) = (0, 0);
    let mut content = vec![format, standard_references, 0, 0, 0, 0, 0, 0];
    let (row0, column0) = (0, 0);
    for number in [row0, column0, tiles_down(header), tiles_across(header)] {
        content.extend((number as u32).to_le_bytes());
    }
    for reference in references {
        content.extend(((reference / 8) as u32).to_le_bytes());
    }
    record(TILE_DIRECTORY, &content, header.checksums_on)
}

/// Length, type, three reserved bytes, content, padding, checksum (G section 3.3). Document 01:
/// "Reserved fields of these records and padding are zero."
pub(super) fn record(record_type: u8, content: &[u8], checksums_on: bool) -> Vec<u8> {
    let length = least_record_length(8 + content.len());
    let mut record = (length as u32).to_le_bytes().to_vec();
    record.extend([record_type, 0, 0, 0]);
    record.extend(content);
    record.resize(length, 0);
    set_checksum(&mut record, checksums_on);
    record
}

/// Document 01: "Checksums as the front's flag says." Stage 7: of all earlier bytes of the record
/// if on, zero if off.
pub(super) fn set_checksum(record: &mut [u8], on: bool) {
    let (earlier, last_four) = record.split_at_mut(record.len() - 4);
    let checksum = if on { crc32c(earlier) } else { 0 };
    last_four.copy_from_slice(&checksum.to_le_bytes());
}
