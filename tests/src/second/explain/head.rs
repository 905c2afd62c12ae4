//! Stages 1 to 5: rules 1 to 32, but for those of elements.

use super::elements::Entries;
use super::{asked, Bytes, Fault, Kept, Text};
use crate::second::utf8::is_utf8;

/// The positions of the four sides: grid rows and columns, tile rows and columns.
const SIDES: [u64; 4] = [104, 108, 112, 116];
const SIDE_CEILINGS: [u64; 4] = [65_536, 65_536, 4_096, 4_096];
const ELEMENT_COUNT: u64 = 280;
const ELEMENT_CEILING: u64 = 16;
/// Found of rule 31 is at most this.
const MOST_TOLD: u128 = 1 << 32;

/// What stage 3 reads of a header that it accepts.
pub struct Head {
    /// Position behind the header.
    pub end: u64,
    pub sides: [u64; 4],
    pub element_count: u64,
    /// The first 16.
    pub entries: Entries,
}

/// Stage 1.
pub fn identified(file: Bytes) -> Kept {
    asked(1, 0, 0).at_least(file.length(), 16)?;
    asked(2, 0, 0).holds(file.0.starts_with(b"gvrs raster\0"), 0, 0)
}

/// Stage 2.
pub fn version(file: Bytes) -> Kept {
    asked(3, 0, 12).equal(file.byte(12), 1)?;
    asked(4, 0, 13).equal(file.byte(13), 4)
}

/// Stage 5.
pub fn not_opened(file: Bytes) -> Kept {
    asked(32, 0, 48).equal(file.long(48), 0)
}

impl Head {
    /// Stage 3.
    pub fn read(file: Bytes) -> Result<Head, Fault> {
        let end = record(file)?;
        let limit = end - 4;
        let sides = SIDES.map(|at| file.integer(at));
        for (number, side) in (0..).zip(sides) {
            asked(9, number, SIDES[number as usize]).at_least(side, 1)?;
            asked(10, number, SIDES[number as usize]).not_negative(side)?;
        }
        asked(11, 0, 128).at_most(file.byte(128), 1)?;
        asked(12, 0, 129).at_most(file.byte(129), 2)?;
        asked(13, 0, 130).at_most(file.byte(130), 2)?;
        let element_count = file.integer(ELEMENT_COUNT);
        asked(14, 0, ELEMENT_COUNT).at_least(element_count, 1)?;
        asked(15, 0, ELEMENT_COUNT).not_negative(element_count)?;
        let entries = Entries::read(file, element_count.min(ELEMENT_CEILING), limit);
        asked(16, 0, ELEMENT_COUNT + 4).at_most(entries.end, limit)?;
        entries.judge(file)?;
        if element_count <= ELEMENT_CEILING {
            rest(file, entries.end, limit)?;
        }
        Ok(Head { end, sides, element_count, entries })
    }

    pub fn tiles_down(&self) -> u64 {
        self.sides[0].div_ceil(self.sides[2])
    }

    pub fn tiles_across(&self) -> u64 {
        self.sides[1].div_ceil(self.sides[3])
    }

    pub fn tiles(&self) -> u64 {
        self.tiles_down() * self.tiles_across()
    }

    /// U of an element of that type: two bytes a cell of a Short, else four.
    pub fn uncompressed(&self, type_code: u64) -> u128 {
        let size = if type_code == 3 { 2 } else { 4 };
        u128::from(self.sides[2]) * u128::from(self.sides[3]) * size
    }

    fn tile_bytes(&self) -> u64 {
        let sizes = self.entries.list.iter().map(|entry| self.uncompressed(entry.type_code));
        sizes.sum::<u128>().min(MOST_TOLD) as u64
    }

    /// Stage 4.
    pub fn ceilings(&self, file: Bytes) -> Kept {
        asked(27, 0, 0).at_most(file.length(), 16_777_216)?;
        for (number, side) in (0..).zip(self.sides) {
            let (at, ceiling) = (SIDES[number as usize], SIDE_CEILINGS[number as usize]);
            asked(28, number, at).at_most(side, ceiling)?;
        }
        asked(29, 0, 104).at_most(self.tiles(), 65_536)?;
        asked(30, 0, ELEMENT_COUNT).at_most(self.element_count, ELEMENT_CEILING)?;
        asked(31, 0, 112).at_most(self.tile_bytes(), 1_048_576)
    }
}

/// Rules 5 to 8. Gives the position behind the header.
fn record(file: Bytes) -> Result<u64, Fault> {
    let length = file.integer(16);
    asked(5, 0, 16).multiple_of_8(length)?;
    asked(6, 0, 16).not_negative(length)?;
    asked(7, 0, 16).at_most(16 + length, file.length())?;
    asked(8, 0, 20).equal(file.byte(20), 6)?;
    Ok(16 + length)
}

/// Rules 23 to 26: what stands behind the elements.
fn rest(file: Bytes, at: u64, limit: u64) -> Kept {
    let methods = file.integer(at);
    asked(23, 0, at).not_negative(methods)?;
    let label_at = behind_methods(file, at + 4, methods, limit);
    let label: Text = file.text(label_at);
    let end = label.end() + 8;
    asked(24, 0, label_at).at_most(end, limit)?;
    asked(25, 0, end).at_most(limit, end + 7)?;
    asked(26, 0, label.at).holds(is_utf8(file.bytes_of(label)), label.length, 0)
}

/// A method name that starts behind the checksum's start is not read, and reading stops there.
fn behind_methods(file: Bytes, first: u64, methods: u64, limit: u64) -> u64 {
    let mut at = first;
    for _ in 0..methods {
        if at > limit {
            break;
        }
        at = file.text(at).end();
    }
    at
}
