//! A front from a description: refusal 12, the bytes, refusal 13 (G Tables 5 to 12).
//!
//! The bytes are written, and then judged as those of any front are.

use super::check::stages_1_to_4_of_a_front;
use super::header::FILE_CEILING;
use super::lay_down::{record, Laid};

/// G Table 2.
const INTEGER_CODED: u32 = 1;
const SHORT: u32 = 3;
/// Record type of a header (document 01, stage 3).
const HEADER: u8 = 6;
/// Numbers of a page before the lengths of the methods' names, and numbers of an element.
pub const PAGE: usize = 6;
pub const ELEMENT: usize = 14;
/// G Table 5: a length has two bytes.
const LONGEST: u32 = 65_535;

/// A description as it is given: the page's numbers, the UUID, 14 numbers for each element, the texts.
#[derive(Clone, Debug, Default, PartialEq)]
pub struct Given {
    pub page: Vec<u32>,
    pub uuid: Vec<u8>,
    pub elements: Vec<u32>,
    pub texts: Vec<u8>,
}

/// Into a buffer of `room` bytes.
pub fn front(given: &Given, room: usize) -> Laid {
    let front = written(given).ok_or((12, 0))?;
    stages_1_to_4_of_a_front(&front)?;
    if room < front.len() {
        return Err((13, 0));
    }
    Ok(front)
}

/// `None` is refusal 12: too few numbers, a UUID or elements of another length, a string too long for
/// its field, texts of another length than they are said to have, a front longer than a file may be.
fn written(given: &Given) -> Option<Vec<u8>> {
    if given.page.len() < PAGE || given.uuid.len() != 16 {
        return None;
    }
    if !given.elements.len().is_multiple_of(ELEMENT) {
        return None;
    }
    let mut texts = given.texts.as_slice();
    let elements: Vec<&[u32]> = given.elements.chunks(ELEMENT).collect();
    let mut content = fixed_fields(given, elements.len());
    for element in &elements {
        let entry = entry(element, &mut texts)?;
        content.extend(entry);
    }
    let methods = &given.page[PAGE..];
    content.extend((methods.len() as u32).to_le_bytes());
    for length in methods {
        content.extend(string(*length, &mut texts)?);
    }
    content.extend(string(given.page[5], &mut texts)?);
    content.extend([0; 8]);
    if !texts.is_empty() {
        return None;
    }
    let mut front = b"gvrs raster\0\x01\x04\0\0".to_vec();
    front.extend(record(HEADER, &content, given.page[4] == 1));
    (front.len() <= FILE_CEILING).then_some(front)
}

/// G Table 7 up to the number of elements: all that is not told is zero.
fn fixed_fields(given: &Given, elements: usize) -> Vec<u8> {
    let mut fields = given.uuid.clone();
    fields.resize(80, 0);
    for side in &given.page[..4] {
        fields.extend(side.to_le_bytes());
    }
    fields.resize(104, 0);
    fields.push(given.page[4].min(255) as u8);
    fields.resize(256, 0);
    fields.extend((elements as u32).to_le_bytes());
    fields
}

/// G Table 8. The header's content begins at 24, and the entries at 284, so that positions in an entry
/// and in the file are multiples of 4 together.
fn entry(element: &[u32], texts: &mut &[u8]) -> Option<Vec<u8>> {
    let kind = element[0].min(255);
    let mut entry = vec![kind as u8, u8::from(element[1] != 0), 0, 0, 0, 0, 0, 0];
    entry.extend(string(element[2], texts)?);
    entry.extend(block(kind, &element[6..]));
    entry.resize(entry.len().next_multiple_of(4), 0);
    for length in &element[3..6] {
        entry.extend(string(*length, texts)?);
    }
    entry.resize(entry.len().next_multiple_of(4), 0);
    Some(entry)
}

/// G Tables 9 to 12: eight numbers integer-coded, else three; a Short's in two bytes each, at 0, 4 and 8.
fn block(kind: u32, numbers: &[u32]) -> Vec<u8> {
    let count = if kind == INTEGER_CODED { 8 } else { 3 };
    let as_written = |number: &u32| {
        let bytes = number.to_le_bytes();
        if kind == SHORT {
            [bytes[0], bytes[1], 0, 0]
        } else {
            bytes
        }
    };
    numbers[..count].iter().flat_map(as_written).collect()
}

/// G Table 5, of the next bytes of the texts.
fn string(length: u32, texts: &mut &[u8]) -> Option<Vec<u8>> {
    if length > LONGEST {
        return None;
    }
    let (own, behind) = texts.split_at_checked(length as usize)?;
    *texts = behind;
    Some([&(length as u16).to_le_bytes(), own].concat())
}
