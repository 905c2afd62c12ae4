//! Asks both for a cell with a compressor, for all cells of an element in a tile, and for M32
//! codes.

use gvrs_tests::library::{cell_with, m32_read_into, m32_write_into, unpack_into};
use gvrs_tests::second::cells::{Cell, Cells, Spot};
use gvrs_tests::second::m32;

use crate::guarded::{turns, Guarded};
use crate::reads::ask::Asked;
use crate::run::Run;

const MARK: u64 = 0x5a5a_5a5a_a5a5_a5a5;
const CELL_MARK: u32 = 0xc35a_3ca5;
const BYTE_MARK: u8 = 0xa5;

impl Run {
    /// Asks for a cell by one route. The answer, if both give the same.
    pub fn cell_with(
        &mut self,
        sort: &str,
        asked: &Asked,
        spot: Spot,
        route: u32,
        compressor: u32,
    ) -> Option<Cell> {
        let from_library = cell_with(&asked.lent, spot, route, compressor);
        let answer = asked.meaning_with(spot, route, compressor);
        self.packed.asked(sort);
        if from_library != answer.as_numbers() {
            let text = format!(
                "{sort}: {spot:?} by route {route}, compressor {compressor}: library \
                 {from_library:x?}, second {answer:x?}"
            );
            self.fault(&text, asked.file);
            return None;
        }
        self.packed.cell(&answer, route);
        Some(answer)
    }

    /// As `cell_with`, where the answer is known. True if it comes.
    pub fn cell_with_is(
        &mut self,
        sort: &str,
        asked: &Asked,
        (spot, route): (Spot, u32),
        compressor: u32,
        expected: Cell,
    ) -> bool {
        let answer = self.cell_with(sort, asked, spot, route, compressor);
        if answer.is_some_and(|answer| answer != expected) {
            let text =
                format!("{sort}: {spot:?} by route {route}: {answer:x?}, expected {expected:x?}");
            self.fault(&text, asked.file);
        }
        answer == Some(expected)
    }

    /// Asks for all cells of an element in a tile, with room for all of them and, in turn, for
    /// none, for one less and for two more, and with an `out` of 2 and, in turn, of 0, 1 and 3. The
    /// answer, if both give the same.
    pub fn unpack(
        &mut self,
        sort: &str,
        asked: &Asked,
        place: (u64, u64),
        compressor: u32,
    ) -> Option<Cells> {
        let answer = asked.cells_with(place.0, place.1, compressor);
        let cells = asked.tile_cells().max(1);
        let [turn, out_turn] = turns(self.packed.unpacks());
        let rooms = [cells, [0, cells - 1, cells + 2][turn]];
        self.packed.asked(sort);
        for (room, out_room) in rooms.into_iter().zip([2, [0, 1, 3][out_turn]]) {
            let found = unpack_difference(&asked.lent, place, compressor, &answer, room, out_room);
            if let Some(what) = found {
                let text = format!("{sort}: tile and element {place:?}, {compressor}: {what}");
                self.fault(&text, asked.file);
                return None;
            }
        }
        if *asked.lent != *asked.file {
            self.fault(&format!("{sort}: the file has changed"), asked.file);
        }
        self.packed.unpack(&answer);
        Some(answer)
    }

    /// As `unpack`, where the answer is known. True if it comes.
    pub fn unpack_is(
        &mut self,
        sort: &str,
        asked: &Asked,
        place: (u64, u64),
        compressor: u32,
        expected: &Cells,
    ) -> bool {
        let answer = self.unpack(sort, asked, place, compressor);
        let good = answer.as_ref() == Some(expected);
        if let (false, Some(answer)) = (good, &answer) {
            let (numbers, wanted) = (answer.as_numbers(), expected.as_numbers());
            let text = format!(
                "{sort}: tile and element {place:?}, {compressor}: {numbers:x?} {:?}, expected \
                 {wanted:x?} {:?}",
                first(answer.bits()),
                first(expected.bits()),
            );
            self.fault(&text, asked.file);
        }
        good
    }

    /// Writes the codes of numbers, into a buffer that is exactly long, one short, longer and
    /// empty; what both write both read back. The bytes.
    pub fn m32_write(&mut self, sort: &str, numbers: &[i32]) -> Vec<u8> {
        let codes = m32::write(numbers);
        self.packed.asked(sort);
        self.packed.written += 1;
        for room in [codes.len(), codes.len().saturating_sub(1), codes.len() + 3, 0] {
            if let Some(what) = write_difference(numbers, &codes, room) {
                self.fault(&format!("{sort}: M32 of {:?}: {what}", first(numbers)), &codes);
                return codes;
            }
        }
        if self.m32_read(sort, &codes, numbers.len()) != numbers {
            self.fault(&format!("{sort}: {:?} do not come back", first(numbers)), &codes);
        }
        codes
    }

    /// Reads codes, at most so many, with room for exactly so many, and with an `out` of 1 and, in
    /// turn, of 0 and 2. The numbers.
    pub fn m32_read(&mut self, sort: &str, bytes: &[u8], most: usize) -> Vec<i32> {
        // An allocation of exactly as many bytes, so that valgrind sees a read behind them.
        let lent: Box<[u8]> = bytes.into();
        let (numbers, taken) = m32::read(bytes, most);
        self.packed.asked(sort);
        self.packed.read += 1;
        for out_room in [1, [0, 2][self.packed.read % 2]] {
            if let Some(what) = read_difference(&lent, &numbers, taken, most, out_room) {
                self.fault(&format!("{sort}: M32, at most {most}: {what}"), bytes);
                break;
            }
        }
        if *lent != *bytes {
            self.fault(&format!("{sort}: the bytes have changed"), bytes);
        }
        numbers
    }
}

/// The first few, for a message.
fn first<Item>(items: &[Item]) -> &[Item] {
    &items[..items.len().min(12)]
}

/// `out` takes as many numbers as fit; the cells are written where they fit whole; all else stays.
fn unpack_difference(
    file: &[u8],
    place: (u64, u64),
    compressor: u32,
    answer: &Cells,
    room: usize,
    out_room: usize,
) -> Option<String> {
    let (number, numbers) = answer.as_numbers();
    let bits = answer.bits();
    let taken = if bits.len() <= room { bits } else { &[] };
    let mut cells = Guarded::taking(CELL_MARK, room, taken);
    let mut out = Guarded::for_numbers(MARK, out_room, &numbers);
    let answered = unpack_into(file, place, compressor, cells.room(), out.room());
    if answered == number && out.is_right() && cells.is_right() {
        return None;
    }
    let (out, differs) = (out.all(), cells.first_wrong());
    Some(format!(
        "room for {room}, out of {out_room}: library {answered}, {out:x?}, second {number}, \
         {numbers:x?}; first cell that differs {differs:x?}"
    ))
}

/// The codes are written where they fit, and what stands behind them stays; else all stays.
fn write_difference(numbers: &[i32], codes: &[u8], room: usize) -> Option<String> {
    let numbers: Vec<u32> = numbers.iter().map(|number| *number as u32).collect();
    let before = numbers.clone();
    let taken = if codes.len() <= room { codes } else { &[] };
    let mut bytes = Guarded::taking(BYTE_MARK, room, taken);
    let length = m32_write_into(&numbers, bytes.room());
    if length == codes.len() as u64 && bytes.is_right() && numbers == before {
        return None;
    }
    let bytes = first(bytes.all());
    Some(format!("room for {room}: library {length}, {bytes:x?}, second {codes:x?}"))
}

fn read_difference(
    bytes: &[u8],
    numbers: &[i32],
    taken: usize,
    most: usize,
    out_room: usize,
) -> Option<String> {
    let bits: Vec<u32> = numbers.iter().map(|number| *number as u32).collect();
    let mut read = Guarded::taking(CELL_MARK, most, &bits);
    let mut out = Guarded::for_numbers(MARK, out_room, &[taken as u64]);
    let many = m32_read_into(bytes, read.room(), out.room());
    if many == numbers.len() as u64 && read.is_right() && out.is_right() {
        return None;
    }
    let (out, many_numbers) = (out.all(), numbers.len());
    Some(format!(
        "out of {out_room}: library {many}, {out:x?}, second {many_numbers}, {taken} bytes"
    ))
}
