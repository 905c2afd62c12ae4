//! The cells of a rectangle, by rows (Req 07, 'C interface').

use std::collections::HashMap;

use super::cells::{cells, element, number_inside, tile_of};
use super::cells::{Cells, Opened, Spot, FILL, STORED, UNPACKED};
use super::check::{Answer, Passed};
use super::header::Header;

/// Cells of one element. Each number is any of 64 bits (Req 07, reading 2).
#[derive(Clone, Copy, Debug, PartialEq)]
pub struct Rectangle {
    pub element: u64,
    pub row: u64,
    pub column: u64,
    pub rows: u64,
    pub columns: u64,
}

/// How many numbers `kinds` and `bits` have.
#[derive(Clone, Copy, Debug, PartialEq)]
pub struct Rooms {
    pub kinds: u64,
    pub bits: u64,
}

/// The answer for the cells of a rectangle: the kind and the bits of each.
#[derive(Clone, Debug, PartialEq)]
pub enum Area {
    Read { kinds: Vec<u32>, bits: Vec<u32> },
    Refused(Answer),
}

impl Area {
    /// As `gvrs_cells` gives it, without the cells: of these out[0] is the number.
    pub fn as_numbers(&self) -> Answer {
        match self {
            Area::Read { kinds, .. } => (0, kinds.len() as u64),
            Area::Refused(refusal) => *refusal,
        }
    }

    /// What goes into `kinds` and `bits`: nothing where the rectangle is refused.
    pub fn taken(&self) -> [&[u32]; 2] {
        match self {
            Area::Read { kinds, bits } => [kinds, bits],
            Area::Refused(_) => [&[], &[]],
        }
    }
}

impl Rectangle {
    /// The rectangle of one cell.
    pub fn of_one(spot: Spot) -> Rectangle {
        let Spot { row, column, element } = spot;
        Rectangle { element, row, column, rows: 1, columns: 1 }
    }

    /// Rows times columns, which 64 bits need not hold.
    pub fn cells(&self) -> u128 {
        u128::from(self.rows) * u128::from(self.columns)
    }

    /// Its cells by rows, where none has a number over 64 bits.
    pub fn spots(self) -> impl Iterator<Item = Spot> {
        let row_of = move |row| {
            let spot = move |column| Spot { row, column, element: self.element };
            (self.column..self.column + self.columns).map(spot)
        };
        (self.row..self.row + self.rows).flat_map(row_of)
    }

    /// Req 07, reading 2: "a sum of natural numbers, each direction by itself [..] The sum equal to
    /// the side is inside."
    pub(super) fn ends_inside(&self, header: &Header) -> bool {
        let end = |start: u64, side: u64| u128::from(start) + u128::from(side);
        end(self.row, self.rows) <= u128::from(header.grid_rows)
            && end(self.column, self.columns) <= u128::from(header.grid_columns)
    }
}

impl Rooms {
    pub fn of(cells: u64) -> Rooms {
        Rooms { kinds: cells, bits: cells }
    }

    fn take(&self, cells: u128) -> bool {
        u128::from(self.kinds) >= cells && u128::from(self.bits) >= cells
    }
}

impl Opened<'_> {
    /// Req 07: "Refused: the check's; 10 as above; 13 where kinds_n or bits_n is below rows ×
    /// columns."
    pub fn area(&self, rectangle: Rectangle, compressor: u32, rooms: Rooms) -> Area {
        let passed = match &self.passed {
            Ok(passed) => passed,
            Err(refusal) => return Area::Refused(*refusal),
        };
        let Some(element) = element(&passed.header, rectangle.element) else {
            return Area::Refused((10, 0));
        };
        if !rectangle.ends_inside(&passed.header) {
            return Area::Refused((10, 0));
        }
        if !rooms.take(rectangle.cells()) {
            return Area::Refused((13, 0));
        }
        read(self.file, passed, rectangle, compressor, element.fill)
    }
}

/// Each cell as it is by itself; the cells of a tile are kept for the next that lies in it.
fn read(file: &[u8], passed: &Passed, rectangle: Rectangle, compressor: u32, fill: u32) -> Area {
    let header = &passed.header;
    let mut tiles: HashMap<u64, Cells> = HashMap::new();
    let (mut kinds, mut bits) = (Vec::new(), Vec::new());
    for spot in rectangle.spots() {
        let tile = tile_of(header, spot);
        let whole = tiles
            .entry(tile)
            .or_insert_with(|| cells(file, passed, tile, rectangle.element, compressor));
        let inside = number_inside(header, spot) as usize;
        let (kind, cell) = match whole {
            Cells::Stored { bits, .. } => (STORED, bits[inside]),
            Cells::Unpacked { bits, .. } => (UNPACKED, bits[inside]),
            Cells::Absent => (FILL, fill),
            Cells::Refused((number, _)) => (*number, 0),
        };
        kinds.push(kind);
        bits.push(cell);
    }
    Area::Read { kinds, bits }
}
