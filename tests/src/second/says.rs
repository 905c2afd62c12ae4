//! What a page says of itself: its stored tiles, its metadata records and the names of its
//! compression methods as lists of numbers, and a metadata record by its name and ID. The records
//! alone decide, and no directory is looked into.

use super::bodies::{metadata_body, tile_body, Metadata};
use super::cells::{is_compressed, part_of, Opened, FLOAT, NO_COMPRESSOR};
use super::chain::{Record, METADATA, TILE};
use super::check::{Answer, Passed};
use super::elements::{ABSENT, FOUND};
use super::header::Header;

/// Which list.
#[derive(Clone, Copy, Debug, PartialEq)]
pub enum List {
    Tiles,
    Metadata,
    Methods,
}

pub const LISTS: [List; 3] = [List::Tiles, List::Metadata, List::Methods];

impl List {
    /// Numbers of an item.
    pub fn size(self) -> usize {
        match self {
            List::Tiles => 4,
            List::Metadata => 9,
            List::Methods => 2,
        }
    }
}

/// A whole list: the numbers of its items, one behind the other; or the check's refusal.
#[derive(Clone, Debug, PartialEq)]
pub struct Said {
    pub list: List,
    pub numbers: Result<Vec<u64>, Answer>,
}

/// What one call has to give: the number, what `numbers` takes, and `out`.
pub type Taken<'a> = (u32, &'a [u64], [u64; 2]);

impl Said {
    pub fn items(&self) -> usize {
        self.numbers.as_ref().map_or(0, |numbers| numbers.len() / self.list.size())
    }

    /// From an item on, into room for so many numbers: as many whole items as fit, how many these
    /// are, and how many there are from that one on; past the end none. A refusal takes nothing.
    pub fn taken(&self, from: u64, room: usize) -> Taken<'_> {
        let numbers = match &self.numbers {
            Ok(numbers) => numbers,
            Err((number, place)) => return (*number, &[], [*place, 0]),
        };
        let size = self.list.size();
        let passed_over = from.min(self.items() as u64) as usize;
        let left = self.items() - passed_over;
        let taken = left.min(room / size);
        let first = size * passed_over;
        (0, &numbers[first..first + size * taken], [taken as u64, left as u64])
    }
}

impl Opened<'_> {
    pub fn list(&self, list: List) -> Said {
        let numbers = self.passed().map(|passed| match list {
            List::Tiles => tiles(self.file, passed).concat(),
            List::Metadata => metadata(passed)
                .map(|(start, body)| of_metadata(start, &body))
                .collect::<Vec<_>>()
                .concat(),
            List::Methods => methods(&passed.header).concat(),
        });
        Said { list, numbers }
    }

    /// The check's refusal and its place; else the number of the metadata record with that name and
    /// ID, from 0 in file order, or that none has them.
    pub fn find_metadata(&self, name: &[u8], id: u32) -> Answer {
        let passed = match self.passed() {
            Ok(passed) => passed,
            Err(refusal) => return refusal,
        };
        let number = metadata(passed).position(|(_, body)| body.name == name && body.id == id);
        number.map_or((ABSENT, 0), |number| (FOUND, number as u64))
    }
}

/// The tile records by their indexes.
fn tiles(file: &[u8], passed: &Passed) -> Vec<[u64; 4]> {
    let header = &passed.header;
    let index = |record| tile_body(header, record).expect("stage 8 has passed");
    let records = passed.records.iter().filter(|record| record.record_type == TILE);
    let mut items: Vec<_> =
        records.map(|record| of_tile(file, header, record, index(record))).collect();
    items.sort_unstable();
    items
}

/// Index, start, a mask with bit e set where element e is packed, and the first byte of the content
/// of the first of these that is no Float.
fn of_tile(file: &[u8], header: &Header, record: &Record, index: u64) -> [u64; 4] {
    let mut mask = 0;
    let mut compressor = None;
    for (number, element) in header.elements.iter().enumerate() {
        let part = part_of(header, record, number);
        if is_compressed(header, element, &part) {
            mask += 1 << number;
            if element.type_code != FLOAT && compressor.is_none() {
                compressor = Some(u64::from(file[part.start]));
            }
        }
    }
    [index, record.start as u64, mask, compressor.unwrap_or(u64::from(NO_COMPRESSOR))]
}

/// The metadata records in file order, each with its start.
fn metadata<'r>(passed: &'r Passed) -> impl Iterator<Item = (usize, Metadata<'r>)> {
    let records = passed.records.iter().filter(|record| record.record_type == METADATA);
    records.map(|record| (record.start, metadata_body(record).expect("stage 8 has passed")))
}

/// Start, place and length of the name, ID, data type, places and lengths of content and
/// description.
fn of_metadata(start: usize, body: &Metadata) -> [u64; 9] {
    let [name_at, name_length] = body.name_span.as_numbers();
    let [content_at, content_length] = body.content.as_numbers();
    let [description_at, description_length] = body.description.as_numbers();
    let (id, data_type) = (u64::from(body.id), u64::from(body.data_type));
    [
        start as u64,
        name_at,
        name_length,
        id,
        data_type,
        content_at,
        content_length,
        description_at,
        description_length,
    ]
}

/// Place and length of each name.
fn methods(header: &Header) -> Vec<[u64; 2]> {
    let behind = header.behind.as_ref().expect("at most 16 elements");
    behind.methods.iter().map(|method| method.as_numbers()).collect()
}
