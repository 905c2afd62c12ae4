//! Correcting a page where it lies (Req 03): an editor over a list of records. Squeezing one (Req 11)
//! is in `squeeze`.

use super::chain::{FILE_SPACE_DIRECTORY, FREE, TILE, TILE_DIRECTORY};
use super::check::{stages_1_to_9, Answer, Passed};
use super::crc32c::crc32c;
use super::fields::{count_at, integer_at};
use super::geometry::{tile_bytes, tile_count, uncompressed_size};
use super::header::{Header, FILE_CEILING, HEADER_START};
use super::lay_down::{record, set_checksum, tile_directory, tile_record};
use super::open_page::{open_page, tile_directory_is_full};
use super::squeeze::squeeze;

/// What a call is given beside the buffer and the page's length (Req 03, reading 1).
#[derive(Clone, Debug, PartialEq)]
pub enum Call {
    /// The time becomes the time opened.
    Open {
        time: u64,
    },
    /// The bytes of one tile, all elements in order, no lengths, no paddings (reading 14).
    Store {
        tile: u64,
        cells: Vec<u8>,
    },
    Remove {
        tile: u64,
    },
    /// The time becomes the time modified.
    Close {
        time: u64,
    },
    /// New starts of the records that are kept (Req 11).
    Squeeze {
        plan: Vec<u64>,
    },
}

/// The page that a call leaves, or the refusal.
pub type Corrected = Result<Vec<u8>, Answer>;

/// A call on a buffer whose first `n` bytes are the page. What stands behind the page that comes
/// out stays as it was, and a refusal changes nothing.
pub fn correct(buffer: &[u8], n: u64, call: &Call) -> Corrected {
    let room = buffer.len();
    if n > room as u64 {
        return Err((12, 0));
    }
    let page = &buffer[..n as usize];
    match call {
        Call::Open { time } => open(page, room, *time),
        Call::Store { tile, cells } => store(page, room, *tile, cells),
        Call::Remove { tile } => remove(page, *tile),
        Call::Close { time } => close(page, room, *time),
        Call::Squeeze { plan } => squeeze(page, plan),
    }
}

// The four calls.

/// Req 03: "After the check's refusals, opening sets the opened time to a number the caller gives,
/// frees the file-space directory, its reference then zero, and replaces a tile directory that
/// doesn't list every tile by a full compact one at the end."
fn open(page: &[u8], room: usize, time: u64) -> Corrected {
    let passed = stages_1_to_9(page)?;
    not_zero(time)?;
    let full = tile_directory_is_full(&passed.header, &passed.records);
    let mut editor = Editor::of(page, passed);
    editor.free_if(|record| kind(record) == FILE_SPACE_DIRECTORY);
    if !full {
        let references = editor.references();
        editor.free_if(|record| kind(record) == TILE_DIRECTORY);
        let directory = tile_directory(&editor.header, &references);
        let content = editor.at_the_end(directory, room)?;
        editor.set_in_front(TILE_DIRECTORY_REFERENCE, content);
    }
    editor.join();
    editor.set_in_front(TIME_OPENED, time);
    editor.set_in_front(FILE_SPACE_REFERENCE, 0);
    Ok(editor.page())
}

/// Req 03: "A stored uncompressed tile is overwritten, cell bytes and checksum only; one with a
/// compressed element is freed first." Then a new record; where there is no room for it, nothing is
/// freed either (reading 11).
fn store(page: &[u8], room: usize, tile: u64, cells: &[u8]) -> Corrected {
    let mut editor = Editor::of_open(page)?;
    let index = editor.index(tile)?;
    if cells.len() as u128 != tile_bytes(&editor.header) {
        return Err((12, 0));
    }
    let stored = editor.tile(index);
    if let Some(number) = stored.filter(|number| editor.is_uncompressed(*number)) {
        editor.overwrite(number, cells);
        return Ok(editor.page());
    }
    if let Some(number) = stored {
        editor.free(number);
        editor.join();
    }
    let new = tile_record(&editor.header, index, cells);
    let content = editor.put(new, room)?;
    editor.set_reference(index, content);
    Ok(editor.page())
}

/// Req 03: "removing an absent tile succeeds and changes nothing".
fn remove(page: &[u8], tile: u64) -> Corrected {
    let mut editor = Editor::of_open(page)?;
    let index = editor.index(tile)?;
    if let Some(number) = editor.tile(index) {
        editor.free(number);
        editor.join();
        editor.set_reference(index, 0);
    }
    Ok(editor.page())
}

/// Req 03: "Closing takes a new modified time, writes the free list, ascending, as a directory at
/// the file's end if there is any free record, and sets the opened time to zero".
fn close(page: &[u8], room: usize, time: u64) -> Corrected {
    let mut editor = Editor::of_open(page)?;
    not_zero(time)?;
    let free = editor.free_list();
    if !free.is_empty() {
        let directory = file_space_directory(&free, editor.header.checksums_on);
        let content = editor.at_the_end(directory, room)?;
        editor.set_in_front(FILE_SPACE_REFERENCE, content);
    }
    editor.set_in_front(TIME_MODIFIED, time);
    editor.set_in_front(TIME_OPENED, 0);
    Ok(editor.page())
}

/// A time of zero is 12. Any other number is a time (reading 15).
fn not_zero(time: u64) -> Result<(), Answer> {
    if time == 0 {
        Err((12, 0))
    } else {
        Ok(())
    }
}

// The editor.

/// Positions in the header record (G Table 7).
const TIME_MODIFIED: usize = 24;
const TIME_OPENED: usize = 32;
const FILE_SPACE_REFERENCE: usize = 40;
const TILE_DIRECTORY_REFERENCE: usize = 64;

/// Positions in a tile directory (G Table 21).
const STANDARD_REFERENCES: usize = 9;
const FIRST_REFERENCE: usize = 32;

/// A page as its front and the list of its records.
struct Editor {
    header: Header,
    front: Vec<u8>,
    records: Vec<Vec<u8>>,
}

impl Editor {
    fn of(page: &[u8], passed: Passed) -> Editor {
        let Passed { header, records } = passed;
        let front = page[..header.end].to_vec();
        Editor { header, front, records: records.iter().map(|r| r.bytes.to_vec()).collect() }
    }

    /// Req 03: "Any call but opening on bytes that are no open page [..] is new refusal 15, place
    /// 0, before all but the length's 12."
    fn of_open(page: &[u8]) -> Result<Editor, Answer> {
        let passed = open_page(page).ok_or((15, 0))?;
        Ok(Editor::of(page, passed))
    }

    /// Req 03: "an index past the tiles is 10".
    fn index(&self, tile: u64) -> Result<u32, Answer> {
        if tile < tile_count(&self.header) {
            Ok(tile as u32)
        } else {
            Err((10, 0))
        }
    }

    /// The page's bytes. The header's checksum is made anew: where no field of the header has
    /// changed it is the same.
    fn page(self) -> Vec<u8> {
        let mut page = self.front;
        set_checksum(&mut page[HEADER_START..], self.header.checksums_on);
        page.extend(self.records.concat());
        page
    }

    fn length(&self) -> usize {
        self.start_of(self.records.len())
    }

    fn start_of(&self, number: usize) -> usize {
        self.front.len() + self.records[..number].iter().map(Vec::len).sum::<usize>()
    }

    fn set_in_front(&mut self, offset: usize, value: u64) {
        let at = HEADER_START + offset;
        self.front[at..at + 8].copy_from_slice(&value.to_le_bytes());
    }

    // Free records.

    /// The record keeps its extent (reading 8).
    fn free(&mut self, number: usize) {
        let length = self.records[number].len();
        self.records[number] = free_record(length, self.header.checksums_on);
    }

    fn free_if(&mut self, wanted: fn(&[u8]) -> bool) {
        for number in 0..self.records.len() {
            if wanted(&self.records[number]) {
                self.free(number);
            }
        }
    }

    /// Req 03: "Adjoining free records are always joined." One that stands alone keeps its reserved
    /// bytes and content (reading 8).
    fn join(&mut self) {
        let on = self.header.checksums_on;
        let runs = self.records.chunk_by(|one, next| is_free(one) && is_free(next));
        let joined = runs.map(|run| match run {
            [alone] => alone.clone(),
            _ => free_record(run.iter().map(Vec::len).sum(), on),
        });
        self.records = joined.collect();
    }

    /// Req 03: "A new record [..] takes the start of the lowest free record of its length or at
    /// least 16 more, else the end". Its content's position.
    fn put(&mut self, new: Vec<u8>, room: usize) -> Result<u64, Answer> {
        let takes = |record: &Vec<u8>| {
            is_free(record) && (record.len() == new.len() || record.len() >= new.len() + 16)
        };
        let Some(number) = self.records.iter().position(takes) else {
            return self.at_the_end(new, room);
        };
        let left = self.records[number].len() - new.len();
        self.records[number] = new;
        if left > 0 {
            let rest = free_record(left, self.header.checksums_on);
            self.records.insert(number + 1, rest);
        }
        Ok(self.start_of(number) as u64 + 8)
    }

    /// Req 03: "13 exactly if neither has room, 4 if only the ceiling stands in the way": 13 also
    /// where the ceiling is passed too (reading 3).
    fn at_the_end(&mut self, new: Vec<u8>, room: usize) -> Result<u64, Answer> {
        let start = self.length();
        let end = start + new.len();
        if end > room {
            return Err((13, 0));
        }
        if end > FILE_CEILING {
            return Err((4, 0));
        }
        self.records.push(new);
        Ok(start as u64 + 8)
    }

    /// Start and length of each free record, ascending.
    fn free_list(&self) -> Vec<(u64, u32)> {
        let mut start = self.front.len();
        let mut list = Vec::new();
        for record in &self.records {
            if is_free(record) {
                list.push((start as u64, record.len() as u32));
            }
            start += record.len();
        }
        list
    }

    // Tiles.

    /// The number of the tile's record.
    fn tile(&self, index: u32) -> Option<usize> {
        let carries =
            |record: &Vec<u8>| kind(record) == TILE && integer_at(record, 8) == Some(index);
        self.records.iter().position(carries)
    }

    /// U of each element.
    fn sizes(&self) -> Vec<usize> {
        let size = |cell_size| uncompressed_size(&self.header, cell_size) as usize;
        self.header.elements.iter().map(|element| size(element.cell_size())).collect()
    }

    /// L is U in every element.
    fn is_uncompressed(&self, number: usize) -> bool {
        let mut at = 12;
        for size in self.sizes() {
            if count_at(&self.records[number], at) != Some(size) {
                return false;
            }
            at += 4 + size.next_multiple_of(4);
        }
        true
    }

    /// Lengths, reserved bytes and paddings stay (reading 10).
    fn overwrite(&mut self, number: usize, cells: &[u8]) {
        let (mut at, mut cells) = (12, cells);
        for size in self.sizes() {
            let (own, behind) = cells.split_at(size);
            self.records[number][at + 4..at + 4 + size].copy_from_slice(own);
            cells = behind;
            at += 4 + size.next_multiple_of(4);
        }
        set_checksum(&mut self.records[number], self.header.checksums_on);
    }

    /// The content's position of each tile's record, 0 of an absent tile.
    fn references(&self) -> Vec<u64> {
        let mut references = vec![0; tile_count(&self.header) as usize];
        let mut start = self.front.len() as u64;
        for record in &self.records {
            if kind(record) == TILE {
                let index = integer_at(record, 8).expect("a tile index");
                references[index as usize] = start + 8;
            }
            start += record.len() as u64;
        }
        references
    }

    /// In a full directory, compact or standard (reading 6).
    fn set_reference(&mut self, index: u32, content: u64) {
        let directory = self.records.iter_mut().find(|record| kind(record) == TILE_DIRECTORY);
        let directory = directory.expect("an open page has a tile directory");
        let index = index as usize;
        if directory[STANDARD_REFERENCES] == 1 {
            let at = FIRST_REFERENCE + 8 * index;
            directory[at..at + 8].copy_from_slice(&content.to_le_bytes());
        } else {
            let at = FIRST_REFERENCE + 4 * index;
            directory[at..at + 4].copy_from_slice(&((content / 8) as u32).to_le_bytes());
        }
        set_checksum(directory, self.header.checksums_on);
    }
}

/// A record's type.
fn kind(record: &[u8]) -> u8 {
    record[4]
}

fn is_free(record: &[u8]) -> bool {
    kind(record) == FREE
}

/// G Table 13. Req 03: "Freed, joined or left-over reserved bytes and content are zeroed". The
/// checksum is of the first eight bytes (document 01, stage 7).
pub(super) fn free_record(length: usize, checksums_on: bool) -> Vec<u8> {
    let mut free = (length as u32).to_le_bytes().to_vec();
    free.resize(length, 0);
    if checksums_on {
        let checksum = crc32c(&free[..8]);
        free[length - 4..].copy_from_slice(&checksum.to_le_bytes());
    }
    free
}

/// G Tables 17 and 18: the count, and of each free record its start and its length.
fn file_space_directory(free: &[(u64, u32)], checksums_on: bool) -> Vec<u8> {
    let mut content = (free.len() as u32).to_le_bytes().to_vec();
    for (start, length) in free {
        content.extend(start.to_le_bytes());
        content.extend(length.to_le_bytes());
    }
    record(FILE_SPACE_DIRECTORY, &content, checksums_on)
}
