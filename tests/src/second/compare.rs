//! Two pages compared cell by cell (Req 09), each entry with its tile (Req 10).

use std::collections::HashMap;

use super::cells::{cells, number_inside, tile_of};
use super::cells::{Cells, Location, Opened, Spot};
use super::check::{Answer, Passed};
use super::header::Header;

/// Numbers of an entry: "Each entry of the compare list becomes five numbers".
pub const ENTRY: usize = 5;

/// A cell that differs, with "tile index and number inside last".
#[derive(Clone, Copy, Debug, PartialEq)]
pub struct Entry {
    pub spot: Spot,
    pub location: Location,
}

/// Whose refusal it is.
#[derive(Clone, Copy, Debug, PartialEq)]
pub enum Whose {
    First,
    Second,
    /// The pages are unlike.
    Neither,
}

/// The answer for two pages.
#[derive(Clone, Debug, PartialEq)]
pub enum Comparison {
    /// The cells that differ, "by row, then column, then element".
    Differing(Vec<Entry>),
    Refused(Whose, Answer),
}

impl Comparison {
    /// As `gvrs_compare` gives it, without the list: the full number, or the place, and whose it is.
    pub fn as_numbers(&self) -> (u32, [u64; 2]) {
        match self {
            Comparison::Differing(entries) => (0, [entries.len() as u64, 0]),
            Comparison::Refused(whose, (number, place)) => {
                let page = match whose {
                    Whose::First => 1,
                    Whose::Second => 2,
                    Whose::Neither => 0,
                };
                (*number, [*place, page])
            }
        }
    }

    /// What goes into a list of so many numbers: "the earliest entries that fit whole".
    pub fn listed(&self, room: usize) -> Vec<u32> {
        self.differing().iter().take(room / ENTRY).flat_map(numbers).collect()
    }

    /// The cells that differ, none of a refusal.
    pub fn differing(&self) -> &[Entry] {
        match self {
            Comparison::Differing(entries) => entries,
            Comparison::Refused(..) => &[],
        }
    }
}

fn numbers(Entry { spot, location }: &Entry) -> [u32; ENTRY] {
    let Location { tile, inside } = *location;
    [spot.row, spot.column, spot.element, tile, inside].map(|number| number as u32)
}

/// A page with the compressor index that is named for it.
#[derive(Clone, Copy)]
pub struct Named<'a> {
    pub opened: &'a Opened<'a>,
    pub compressor: u32,
}

/// "The first page's refusal is given before the second's; then that 12; then 11 or 14".
pub fn compare(first: Named, second: Named) -> Comparison {
    let passed = match &first.opened.passed {
        Ok(passed) => passed,
        Err(refusal) => return Comparison::Refused(Whose::First, *refusal),
    };
    let other = match &second.opened.passed {
        Ok(passed) => passed,
        Err(refusal) => return Comparison::Refused(Whose::Second, *refusal),
    };
    if !are_alike(&passed.header, &other.header) {
        return Comparison::Refused(Whose::Neither, (12, 0));
    }
    let mut left = Reader::new(first.opened.file, passed, first.compressor);
    let mut right = Reader::new(second.opened.file, other, second.compressor);
    match differing(&passed.header, &mut left, &mut right) {
        Ok(entries) => Comparison::Differing(entries),
        Err((whose, refusal)) => Comparison::Refused(whose, refusal),
    }
}

/// "Equal grid, tile sides and element types". Reading 2: grid rows and columns, tile rows and
/// columns, the number of elements and the type of each; nothing else is compared.
fn are_alike(first: &Header, second: &Header) -> bool {
    let sides = |header: &Header| {
        [header.grid_rows, header.grid_columns, header.tile_rows, header.tile_columns]
    };
    let types = |header: &Header| -> Vec<u8> {
        header.elements.iter().map(|element| element.type_code).collect()
    };
    sides(first) == sides(second) && types(first) == types(second)
}

/// What is compared of a cell: its kind, of which there are two, as "stored includes unpacked" (Req 07,
/// reading 4), and its bits.
#[derive(PartialEq)]
struct Compared {
    is_fill: bool,
    bits: u32,
}

/// The cells of a page; those of a tile are kept for the next that lies in it.
struct Reader<'a> {
    file: &'a [u8],
    passed: &'a Passed<'a>,
    compressor: u32,
    kept: HashMap<(u64, u64), Cells>,
}

impl<'a> Reader<'a> {
    fn new(file: &'a [u8], passed: &'a Passed<'a>, compressor: u32) -> Reader<'a> {
        Reader { file, passed, compressor, kept: HashMap::new() }
    }

    fn cell(&mut self, spot: Spot) -> Result<Compared, Answer> {
        let header = &self.passed.header;
        let tile = tile_of(header, spot);
        let Reader { file, passed, compressor, kept } = self;
        let whole = kept
            .entry((tile, spot.element))
            .or_insert_with(|| cells(file, passed, tile, spot.element, *compressor));
        match whole {
            Cells::Stored { bits, .. } | Cells::Unpacked { bits, .. } => {
                let bits = bits[number_inside(header, spot) as usize];
                Ok(Compared { is_fill: false, bits })
            }
            Cells::Absent => {
                let bits = header.elements[spot.element as usize].fill;
                Ok(Compared { is_fill: true, bits })
            }
            Cells::Refused(refusal) => Err(*refusal),
        }
    }
}

/// "Each cell differing in kind or bits once, no other"; or the refusal "at the first unreadable cell in
/// that order, on a tie the first page's".
fn differing(
    header: &Header,
    first: &mut Reader,
    second: &mut Reader,
) -> Result<Vec<Entry>, (Whose, Answer)> {
    let mut entries = Vec::new();
    for row in 0..header.grid_rows {
        for column in 0..header.grid_columns {
            for element in 0..header.elements.len() as u64 {
                let spot = Spot { row, column, element };
                let of_first = first.cell(spot).map_err(|refusal| (Whose::First, refusal))?;
                let of_second = second.cell(spot).map_err(|refusal| (Whose::Second, refusal))?;
                if of_first != of_second {
                    let (tile, inside) = (tile_of(header, spot), number_inside(header, spot));
                    entries.push(Entry { spot, location: Location { tile, inside } });
                }
            }
        }
    }
    Ok(entries)
}
