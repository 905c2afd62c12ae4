//! Squeezing an open page (Req 11): a plan of new starts, whether it is accepted, and what it makes
//! of the page.

use std::collections::HashMap;

use super::chain::{Record, FREE, METADATA_DIRECTORY, TILE_DIRECTORY};
use super::check::Passed;
use super::correct::{free_record, Corrected};
use super::fields::{count_at, integer_at, long_at, short_at};
use super::header::HEADER_START;
use super::lay_down::set_checksum;
use super::open_page::open_page;

/// Positions in the file of the header's references to the two directories (G Table 7).
const METADATA_REFERENCE: usize = 64;
const TILE_DIRECTORY_REFERENCE: usize = 80;

/// Req 11: "each record after the header that is not free, in file order".
pub fn kept<'a>(records: &[Record<'a>]) -> Vec<Record<'a>> {
    records.iter().filter(|record| record.record_type != FREE).copied().collect()
}

/// Start and length of each.
fn places(records: &[Record]) -> Vec<(usize, usize)> {
    records.iter().map(|record| (record.start, record.length())).collect()
}

/// Where a page's records begin, and start and length of each that is kept; `None` is 15.
pub fn kept_of(page: &[u8]) -> Option<(usize, Vec<(usize, usize)>)> {
    let passed = open_page(page)?;
    Some((passed.header.end, places(&kept(&passed.records))))
}

/// Req 11: "A checker accepts exactly if order is kept, nothing moves up, records stay disjoint,
/// starts are multiples of 8 after the header, and gaps, one behind the header too, are zero or at
/// least 16." Numbers of any size.
pub fn is_accepted(header_end: usize, kept: &[(usize, usize)], plan: &[u64]) -> bool {
    if plan.len() != kept.len() {
        return false;
    }
    let end = |number: usize| u128::from(plan[number]) + kept[number].1 as u128;
    let gap = |end: u128, start: u64| {
        let start = u128::from(start);
        start == end || start >= end + 16
    };
    let pairs = || (1..plan.len()).map(|number| (number - 1, number));
    let order_kept = pairs().all(|(one, next)| plan[one] < plan[next]);
    let nothing_up = plan.iter().zip(kept).all(|(start, (old, _))| *start <= *old as u64);
    let disjoint = pairs().all(|(one, next)| end(one) <= u128::from(plan[next]));
    let eights = plan.iter().all(|start| start % 8 == 0 && *start >= header_end as u64);
    let first_gap = plan.first().is_none_or(|start| gap(header_end as u128, *start));
    let gaps = pairs().all(|(one, next)| gap(end(one), plan[next]));
    order_kept && nothing_up && disjoint && eights && first_gap && gaps
}

/// Req 11: "The plan that slides every record against the one before it".
pub fn tight_plan(header_end: usize, kept: &[(usize, usize)]) -> Vec<u64> {
    let mut end = header_end as u64;
    let slide = |(_, length): &(usize, usize)| {
        let start = end;
        end += *length as u64;
        start
    };
    kept.iter().map(slide).collect()
}

/// Req 11: "Applying an accepted one leaves an open page, kept records unchanged but for references
/// and checksums, and makes each gap one zeroed free record".
pub(super) fn squeeze(page: &[u8], plan: &[u64]) -> Corrected {
    let Passed { header, records } = open_page(page).ok_or((15, 0))?;
    let kept = kept(&records);
    if !is_accepted(header.end, &places(&kept), plan) {
        return Err((12, 0));
    }
    let to: HashMap<u64, u64> =
        kept.iter().zip(plan).map(|(record, start)| (record.content(), start + 8)).collect();
    let mut new = page[..header.end].to_vec();
    for (record, start) in kept.iter().zip(plan) {
        let gap = *start as usize - new.len();
        if gap > 0 {
            new.extend(free_record(gap, header.checksums_on));
        }
        let mut bytes = record.bytes.to_vec();
        match record.record_type {
            TILE_DIRECTORY => rename_tiles(&mut bytes, &to),
            METADATA_DIRECTORY => rename_metadata(&mut bytes, &to),
            _ => (),
        }
        if [TILE_DIRECTORY, METADATA_DIRECTORY].contains(&record.record_type) {
            set_checksum(&mut bytes, header.checksums_on);
        }
        new.extend(bytes);
    }
    for at in [METADATA_REFERENCE, TILE_DIRECTORY_REFERENCE] {
        rename_long(&mut new, at, &to);
    }
    set_checksum(&mut new[HEADER_START..header.end], header.checksums_on);
    Ok(new)
}

/// A position of a content set to the new one; zero stays.
fn rename_long(bytes: &mut [u8], at: usize, to: &HashMap<u64, u64>) {
    let old = long_at(bytes, at).expect("a position");
    if old != 0 {
        bytes[at..at + 8].copy_from_slice(&to[&old].to_le_bytes());
    }
}

/// G Table 21: references of eight bytes, or compact ones, of four, the position divided by 8.
fn rename_tiles(directory: &mut [u8], to: &HashMap<u64, u64>) {
    let rows = count_at(directory, 24).expect("rows");
    let columns = count_at(directory, 28).expect("columns");
    let standard = directory[9] == 1;
    for number in 0..rows * columns {
        if standard {
            rename_long(directory, 32 + 8 * number, to);
            continue;
        }
        let at = 32 + 4 * number;
        let old = integer_at(directory, at).expect("a reference");
        if old != 0 {
            let new = to[&(8 * u64::from(old))] / 8;
            directory[at..at + 4].copy_from_slice(&(new as u32).to_le_bytes());
        }
    }
}

/// G Tables 19 and 20: of each entry a position, a name, a record ID and a type code.
fn rename_metadata(directory: &mut [u8], to: &HashMap<u64, u64>) {
    let mut at = 12;
    for _ in 0..count_at(directory, 8).expect("a count") {
        rename_long(directory, at, to);
        let name = short_at(directory, at + 8).expect("a name");
        at += 8 + 2 + usize::from(name) + 4 + 1;
    }
}
