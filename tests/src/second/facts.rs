//! What a page is, and what one of its elements is, as numbers.

use super::cells::{element, Opened};
use super::chain::{METADATA, TILE};
use super::check::{Answer, Passed};
use super::geometry::{tile_bytes, tiles_across, tiles_down};

/// How many numbers a page is, and an element; and with what they say of themselves.
pub const PAGE: usize = 13;
pub const ELEMENT: usize = 6;
pub const PAGE_SAID: usize = 21;
pub const ELEMENT_SAID: usize = 18;

/// G Table 7: 16 bytes of the UUID, and 18 Doubles of the coordinates.
const UUID_AT: u64 = 24;
const COORDINATES: [u64; 2] = [136, 144];

impl Opened<'_> {
    /// As `gvrs_page` gives it: the check's refusal and its place; else 0 and, in this order, grid
    /// rows and columns, tile rows and columns, tiles down and across, elements, bytes of a tile,
    /// length of the front, tile records, metadata records, time modified, and 1 where checksums
    /// are on.
    pub fn page(&self) -> (u32, [u64; PAGE]) {
        answered(self.passed().map(of_page))
    }

    /// As `gvrs_page_said` gives it: behind those place and length of the product label, place of
    /// the UUID, methods, raster space, coordinate system, place and length of the coordinates.
    pub fn page_said(&self) -> (u32, [u64; PAGE_SAID]) {
        answered(self.passed().map(said_of_page))
    }

    /// As `gvrs_element` gives it: the check's refusal, or 10 where the page has no element of that
    /// number; else 0 and, in this order, type code, bits of the fill, place and length of the
    /// name, and those of the unit.
    pub fn element(&self, number: u64) -> (u32, [u64; ELEMENT]) {
        answered(self.passed().and_then(|passed| of_element(passed, number)))
    }

    /// As `gvrs_element_said` gives it: behind those place and length of the label and of the
    /// description, continuous, bits of minimum and maximum, and those of the five Floats of an
    /// integer-coded element, else zeros.
    pub fn element_said(&self, number: u64) -> (u32, [u64; ELEMENT_SAID]) {
        answered(self.passed().and_then(|passed| said_of_element(passed, number)))
    }

    pub(super) fn passed(&self) -> Result<&Passed<'_>, Answer> {
        self.passed.as_ref().map_err(|refusal| *refusal)
    }
}

/// Of a refusal the place, and behind it zeros.
fn answered<const COUNT: usize>(numbers: Result<[u64; COUNT], Answer>) -> (u32, [u64; COUNT]) {
    match numbers {
        Ok(numbers) => (0, numbers),
        Err((number, place)) => {
            let mut numbers = [0; COUNT];
            numbers[0] = place;
            (number, numbers)
        }
    }
}

fn of_page(passed: &Passed) -> [u64; PAGE] {
    let header = &passed.header;
    [
        header.grid_rows,
        header.grid_columns,
        header.tile_rows,
        header.tile_columns,
        tiles_down(header),
        tiles_across(header),
        header.elements.len() as u64,
        tile_bytes(header) as u64,
        header.end as u64,
        records_of(passed, TILE),
        records_of(passed, METADATA),
        header.time_modified,
        u64::from(header.checksums_on),
    ]
}

fn said_of_page(passed: &Passed) -> [u64; PAGE_SAID] {
    let header = &passed.header;
    let behind = header.behind.as_ref().expect("at most 16 elements");
    let mut numbers = of_page(passed).to_vec();
    numbers.extend(behind.label.as_numbers());
    numbers.extend([UUID_AT, behind.methods.len() as u64]);
    numbers.extend([header.raster_space, header.coordinate_system].map(u64::from));
    numbers.extend(COORDINATES);
    numbers.try_into().expect("twenty-one numbers")
}

fn records_of(passed: &Passed, record_type: u8) -> u64 {
    passed.records.iter().filter(|record| record.record_type == record_type).count() as u64
}

fn of_element(passed: &Passed, number: u64) -> Result<[u64; ELEMENT], Answer> {
    let element = element(&passed.header, number).ok_or((10, 0))?;
    let [name_at, name_length] = element.name_span.as_numbers();
    let [unit_at, unit_length] = element.unit.as_numbers();
    let (type_code, fill) = (u64::from(element.type_code), u64::from(element.fill));
    Ok([type_code, fill, name_at, name_length, unit_at, unit_length])
}

fn said_of_element(passed: &Passed, number: u64) -> Result<[u64; ELEMENT_SAID], Answer> {
    let mut numbers = of_element(passed, number)?.to_vec();
    let element = element(&passed.header, number).ok_or((10, 0))?;
    for span in [element.label, element.description] {
        numbers.extend(span.as_numbers());
    }
    numbers.push(u64::from(element.continuous));
    let bits =
        [element.minimum, element.maximum].into_iter().chain(element.floats.unwrap_or([0; 5]));
    numbers.extend(bits.map(u64::from));
    Ok(numbers.try_into().expect("eighteen numbers"))
}
