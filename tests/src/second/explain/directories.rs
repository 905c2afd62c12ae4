//! Stage 9: the references to directories, and the tile directory: rules 49 to 59.

use std::collections::HashMap;

use super::head::Head;
use super::lists::{file_space, metadata};
use super::records::{Chain, Record};
use super::{asked, Bytes, Kept};
use crate::second::chain::{TILE, TILE_DIRECTORY};

/// Where the header has the reference to the tile directory.
const REFERENCE_AT: u64 = 80;

pub fn all(file: Bytes, head: &Head, chain: &Chain) -> Kept {
    tiles(file, head, chain)?;
    metadata(file, chain)?;
    file_space(file, chain)
}

/// A directory: its type, the reference to it and the header's field that holds it.
pub struct Referred {
    pub record_type: u8,
    pub reference: u64,
    pub field: u64,
}

impl Referred {
    pub fn read(file: Bytes, record_type: u8, field: u64) -> Referred {
        Referred { record_type, reference: file.long(field), field }
    }

    /// The record of the directory's type whose content the reference is.
    pub fn record(&self, chain: &Chain) -> Option<Record> {
        let records = chain.of_type(self.record_type);
        records.into_iter().find(|record| record.content() == self.reference)
    }

    /// Rules 49, 60 and 68; zero is allowed of the last two.
    pub fn is_of_one(&self, rule: u64, chain: &Chain, zero_allowed: bool) -> Kept {
        let zero = zero_allowed && self.reference == 0;
        let kept = zero || self.record(chain).is_some();
        asked(rule, 0, self.field).holds(kept, self.reference, 0)
    }

    /// Rules 50, 61 and 69.
    pub fn no_other(&self, rule: u64, chain: &Chain) -> Kept {
        for (number, record) in (0..).zip(chain.of_type(self.record_type)) {
            asked(rule, number, record.start).equal(record.content(), self.reference)?;
        }
        Ok(())
    }
}

/// Two rules of a directory whose entries end there: they fit, and at most 7 bytes of padding are
/// behind them.
pub fn padded(rule: u64, record: &Record, end: u64) -> Kept {
    asked(rule, 0, record.start).at_most(end, record.limit())?;
    asked(rule + 1, 0, record.start).at_most(record.limit(), end + 7)
}

/// Rules 49 to 59.
fn tiles(file: Bytes, head: &Head, chain: &Chain) -> Kept {
    let referred = Referred::read(file, TILE_DIRECTORY, REFERENCE_AT);
    referred.is_of_one(49, chain, false)?;
    referred.no_other(50, chain)?;
    let at = referred.reference;
    asked(51, 0, at).equal(file.byte(at), 0)?;
    asked(52, 0, at + 1).at_most(file.byte(at + 1), 1)?;
    let rows = span(file, 0, (at + 8, at + 16), head.tiles_down())?;
    let columns = span(file, 1, (at + 12, at + 20), head.tiles_across())?;
    let listing = Listing { first: at + 24, wide: file.byte(at + 1) == 1, rows, columns };
    if let Some(record) = referred.record(chain) {
        padded(56, &record, listing.end())?;
    }
    listing.judge(file, head, &chain.of_type(TILE))
}

/// Start and side of a rectangle in one direction.
#[derive(Clone, Copy)]
struct Span {
    start: u64,
    side: u64,
}

impl Span {
    fn has(self, number: u64) -> bool {
        self.start <= number && number < self.start + self.side
    }
}

/// Rules 53 to 55 in one direction: 0 rows, 1 columns.
fn span(file: Bytes, number: u64, at: (u64, u64), tiles: u64) -> Result<Span, super::Fault> {
    let (start, side) = (file.integer(at.0), file.integer(at.1));
    asked(53, number, at.0).not_negative(start)?;
    asked(54, number, at.1).not_negative(side)?;
    asked(55, number, at.1).at_most(start + side, tiles)?;
    Ok(Span { start, side })
}

/// The references of a tile directory, by rows.
struct Listing {
    first: u64,
    /// Eight bytes a reference; else four, which are told times 8.
    wide: bool,
    rows: Span,
    columns: Span,
}

impl Listing {
    fn width(&self) -> u64 {
        if self.wide {
            8
        } else {
            4
        }
    }

    fn end(&self) -> u64 {
        self.first + self.rows.side * self.columns.side * self.width()
    }

    /// Where the reference of a tile row and column stands, if the rectangle has it.
    fn at(&self, row: u64, column: u64) -> Option<u64> {
        let inside = self.rows.has(row) && self.columns.has(column);
        let before = |row: u64, column: u64| {
            (row - self.rows.start) * self.columns.side + (column - self.columns.start)
        };
        inside.then(|| self.first + before(row, column) * self.width())
    }

    fn reference(&self, file: Bytes, at: u64) -> u64 {
        if self.wide {
            file.long(at)
        } else {
            8 * file.integer(at)
        }
    }

    /// Rules 58 and 59.
    fn judge(&self, file: Bytes, head: &Head, tiles: &[Record]) -> Kept {
        let across = head.tiles_across();
        let mut contents = HashMap::new();
        for record in tiles {
            let index = file.integer(record.content());
            let at = self.at(index / across, index % across);
            let found = at.map_or(0, |at| self.reference(file, at));
            asked(58, index, record.start).equal(found, record.content())?;
            contents.insert(index, record.content());
        }
        for row in self.rows.start..self.rows.start + self.rows.side {
            for column in self.columns.start..self.columns.start + self.columns.side {
                let index = row * across + column;
                let at = self.at(row, column).unwrap_or(0);
                let found = self.reference(file, at);
                let kept = found == 0 || contents.get(&index) == Some(&found);
                asked(59, index, at).holds(kept, found, 0)?;
            }
        }
        Ok(())
    }
}
