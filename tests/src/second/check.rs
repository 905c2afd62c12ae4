//! The check: stages 1 to 9 in their order, each over the whole file before the next.

use super::bodies::first_bad_body;
use super::chain::{chain, header_record, Record};
use super::checksums::first_bad_checksum;
use super::directories::directories_are_good;
use super::header::{
    has_version_1_4, header_of, is_identified, is_opened, passes_a_ceiling, Header,
};

/// The refusal's number, 0 if the file is accepted, and its place (document 01, 'Thirteen
/// refusals').
pub type Answer = (u32, u64);

/// A file that passes stages 1 to 8.
pub struct Passed<'a> {
    pub header: Header,
    /// The records behind the header.
    pub records: Vec<Record<'a>>,
}

pub fn check(file: &[u8]) -> Answer {
    match stages_1_to_9(file) {
        Ok(_) => (0, 0),
        Err(refusal) => refusal,
    }
}

pub fn stages_1_to_9(file: &[u8]) -> Result<Passed<'_>, Answer> {
    let passed = stages_1_to_8(file)?;
    if directories_are_good(&passed.header, &passed.records) {
        Ok(passed)
    } else {
        Err((9, 16))
    }
}

pub fn stages_1_to_8(file: &[u8]) -> Result<Passed<'_>, Answer> {
    let header = stages_1_to_5(file)?;
    let records = stages_6_to_8(file, &header)?;
    Ok(Passed { header, records })
}

/// The records behind the header of a file that passes stages 1 to 4.
pub fn stages_6_to_8<'a>(file: &'a [u8], header: &Header) -> Result<Vec<Record<'a>>, Answer> {
    let records = chain(file, header).map_err(|start| (6, start as u64))?;
    let first = header_record(file, header);
    if let Some(start) = first_bad_checksum(first, &records, header.checksums_on) {
        return Err((7, start as u64));
    }
    if let Some(start) = first_bad_body(header, &records) {
        return Err((8, start as u64));
    }
    Ok(records)
}

pub fn stages_1_to_5(file: &[u8]) -> Result<Header, Answer> {
    let header = stages_1_to_4(file)?;
    if is_opened(&header) {
        return Err((5, 0));
    }
    Ok(header)
}

pub fn stages_1_to_4(file: &[u8]) -> Result<Header, Answer> {
    let header = stages_1_to_3(file)?;
    stage_4(file, &header)?;
    Ok(header)
}

/// Document 01, 'Laying down a page': "The front passes stages 1 to 4 taken by itself, a longer one
/// being 3." That is part of stage 3, whatever the ceilings say (reading 9).
pub fn stages_1_to_4_of_a_front(front: &[u8]) -> Result<Header, Answer> {
    let header = stages_1_to_3(front)?;
    if front.len() > header.end {
        return Err((3, 0));
    }
    stage_4(front, &header)?;
    Ok(header)
}

fn stages_1_to_3(file: &[u8]) -> Result<Header, Answer> {
    if !is_identified(file) {
        return Err((1, 0));
    }
    if !has_version_1_4(file) {
        return Err((2, 0));
    }
    header_of(file, file.len() as u64).ok_or((3, 0))
}

fn stage_4(file: &[u8], header: &Header) -> Result<(), Answer> {
    if passes_a_ceiling(file.len() as u64, header) {
        Err((4, 0))
    } else {
        Ok(())
    }
}
