//! Asks both for the cells of a rectangle, and for what a page and its elements are.

use gvrs_tests::library::{
    self, cells_into, element_into, element_said_into, page_into, page_said_into, Lent, DIRECTORY,
};
use gvrs_tests::second::cells::Cell;
use gvrs_tests::second::facts::{ELEMENT_SAID, PAGE_SAID};
use gvrs_tests::second::rectangles::{Area, Rectangle, Rooms};

use crate::guarded::{turns, Guarded};
use crate::reads::ask::Asked;
use crate::run::Run;

const MARK: u64 = 0x5a5a_5a5a_a5a5_a5a5;
const KIND_MARK: u32 = 0x3ca5_c35a;
const BIT_MARK: u32 = 0xc35a_3ca5;
/// What the lent memory holds before a call, in turn.
const MEMORIES: [u32; 3] = [0, 0x1234_5678, u32::MAX];

/// One call for the cells of a rectangle.
struct Call {
    rectangle: Rectangle,
    compressor: u32,
    memory: usize,
    /// What is in it.
    filled: u32,
    rooms: [usize; 2],
    out_room: usize,
}

/// The lengths of memory that matter: none, one, one too short to unpack a tile, just long enough,
/// and more.
pub fn memories(tile_cells: usize) -> [usize; 5] {
    [0, 1, tile_cells.saturating_sub(1), tile_cells, tile_cells + 3]
}

impl Run {
    /// Asks for the cells of a rectangle with memories of five lengths, of two where it is refused.
    /// The answer, if both give the same with each.
    pub fn area(
        &mut self,
        sort: &str,
        asked: &Asked,
        rectangle: Rectangle,
        compressor: u32,
    ) -> Option<Area> {
        let memories = memories(asked.tile_cells());
        self.area_with(sort, asked, rectangle, compressor, &memories)
    }

    /// The same with memories of these lengths: in turn with room for exactly as many cells, for
    /// two kinds more and for three bits more, and with an `out` of 0, 1 and 3. Then with room for
    /// one less of either, which is 13; and some of the cells by themselves.
    pub fn area_with(
        &mut self,
        sort: &str,
        asked: &Asked,
        rectangle: Rectangle,
        compressor: u32,
        memories: &[usize],
    ) -> Option<Area> {
        let answer = asked.checked.area(rectangle, compressor, Rooms::of(u64::MAX));
        let [kinds, bits] = answer.taken().map(<[u32]>::len);
        self.face.asked(sort);
        let refused = matches!(answer, Area::Refused(_));
        for memory in memories.iter().take(if refused { 2 } else { memories.len() }) {
            let [more, out_turn] = turns(self.face.next_call());
            let call = Call {
                rectangle,
                compressor,
                memory: *memory,
                filled: MEMORIES[more],
                rooms: [[kinds, bits], [kinds + 2, bits], [kinds, bits + 3]][more],
                out_room: [1, 0, 3][out_turn],
            };
            if !self.answers_so(sort, asked, &call, &answer) {
                return None;
            }
        }
        if kinds > 0 {
            for (kinds, bits) in [(kinds - 1, bits), (kinds, bits - 1)] {
                self.area_in(sort, asked, rectangle, compressor, [kinds, bits]);
            }
        }
        self.as_one_by_one(sort, asked, rectangle, compressor, &answer);
        self.face.area(&answer, asked.checked.element(rectangle.element).1[0]);
        Some(answer)
    }

    /// As `area`, where the answer is known. True if it comes.
    pub fn area_is(
        &mut self,
        sort: &str,
        asked: &Asked,
        rectangle: Rectangle,
        compressor: u32,
        expected: &Area,
    ) -> bool {
        let answer = self.area(sort, asked, rectangle, compressor);
        if answer.as_ref().is_some_and(|answer| answer != expected) {
            let text = format!(
                "{sort}: {rectangle:?}, compressor {compressor}: {answer:x?}, expected \
                 {expected:x?}"
            );
            self.fault(&text, asked.file);
        }
        answer.as_ref() == Some(expected)
    }

    /// With rooms of these lengths, which may be too short. The answer, if both give the same.
    pub fn area_in(
        &mut self,
        sort: &str,
        asked: &Asked,
        rectangle: Rectangle,
        compressor: u32,
        rooms: [usize; 2],
    ) -> Option<Area> {
        let [kinds, bits] = rooms.map(|room| room as u64);
        let answer = asked.checked.area(rectangle, compressor, Rooms { kinds, bits });
        let [filled, out_turn] = turns(self.face.next_call());
        let (filled, out_room) = (MEMORIES[filled], [1, 0, 3][out_turn]);
        let memory = asked.tile_cells();
        let call = Call { rectangle, compressor, memory, filled, rooms, out_room };
        self.face.asked(sort);
        let same = self.answers_so(sort, asked, &call, &answer);
        if same {
            self.face.area(&answer, asked.checked.element(rectangle.element).1[0]);
        }
        same.then_some(answer)
    }

    fn answers_so(&mut self, sort: &str, asked: &Asked, call: &Call, answer: &Area) -> bool {
        let found = difference(&asked.lent, call, answer);
        if let Some(what) = &found {
            let (rectangle, compressor) = (call.rectangle, call.compressor);
            let text = format!("{sort}: {rectangle:?}, compressor {compressor}: {what}");
            self.fault(&text, asked.file);
        }
        if *asked.lent != *asked.file {
            self.fault(&format!("{sort}: the file has changed"), asked.file);
        }
        found.is_none()
    }

    /// The first cell, the last and one between, each as both give it by itself.
    fn as_one_by_one(
        &mut self,
        sort: &str,
        asked: &Asked,
        rectangle: Rectangle,
        compressor: u32,
        answer: &Area,
    ) {
        let [kinds, bits] = answer.taken();
        if kinds.is_empty() {
            return;
        }
        for at in [0, kinds.len() - 1, self.face.questions() % kinds.len()] {
            let spot = rectangle.spots().nth(at).expect("a cell of the rectangle");
            let by_itself = match asked.meaning_with(spot, DIRECTORY, compressor) {
                Cell::Refused((number, _)) => (number, 0),
                cell => (cell.as_numbers().0, cell.as_numbers().1[1]),
            };
            let (number, out) = library::cell_with(&asked.lent, spot, DIRECTORY, compressor);
            let in_rectangle = (kinds[at], u64::from(bits[at]));
            if in_rectangle != by_itself || in_rectangle != (number, out[1]) {
                let text = format!(
                    "{sort}: {rectangle:?}: cell {at} {in_rectangle:x?}, by itself {by_itself:x?}, \
                     library {number} {out:x?}"
                );
                self.fault(&text, asked.file);
            }
        }
    }

    /// Asks what a page is, with an `out` of 13 and, in turn, of 0 to 15. The answer, if both give
    /// the same.
    pub fn page(&mut self, sort: &str, asked: &Asked) -> Option<(u32, [u64; 13])> {
        let answer = asked.checked.page();
        self.face.asked(sort);
        let asked_for = |out: &mut [u64]| page_into(&asked.lent, out);
        let same = self.told(sort, asked, "the page", &answer, asked_for);
        if same {
            self.face.pages[answer.0 as usize] += 1;
        }
        same.then_some(answer)
    }

    /// The same with what it says of itself, and an `out` of 21 and, in turn, of 0 to 23.
    pub fn page_said(&mut self, sort: &str, asked: &Asked) -> Option<(u32, [u64; PAGE_SAID])> {
        let answer = asked.checked.page_said();
        self.face.asked(sort);
        let asked_for = |out: &mut [u64]| page_said_into(&asked.lent, out);
        let same = self.told(sort, asked, "what the page says", &answer, asked_for);
        if same {
            self.face.pages_said[answer.0 as usize] += 1;
        }
        same.then_some(answer)
    }

    /// Asks what an element is, with an `out` of 6 and, in turn, of 0 to 8. The answer, if both
    /// give the same.
    pub fn element(&mut self, sort: &str, asked: &Asked, number: u64) -> Option<(u32, [u64; 6])> {
        let answer = asked.checked.element(number);
        self.face.asked(sort);
        let asked_for = |out: &mut [u64]| element_into(&asked.lent, number, out);
        let same = self.told(sort, asked, &format!("element {number}"), &answer, asked_for);
        if same {
            self.face.elements[answer.0 as usize] += 1;
        }
        same.then_some(answer)
    }

    /// The same with what the page says of it, and an `out` of 18 and, in turn, of 0 to 20.
    pub fn element_said(
        &mut self,
        sort: &str,
        asked: &Asked,
        number: u64,
    ) -> Option<(u32, [u64; ELEMENT_SAID])> {
        let answer = asked.checked.element_said(number);
        self.face.asked(sort);
        let asked_for = |out: &mut [u64]| element_said_into(&asked.lent, number, out);
        let what = format!("what the page says of element {number}");
        let same = self.told(sort, asked, &what, &answer, asked_for);
        if same {
            self.face.elements_said[answer.0 as usize] += 1;
        }
        same.then_some(answer)
    }

    /// The number does not depend on `out`, which takes as many numbers as fit; all else stays.
    fn told<const COUNT: usize>(
        &mut self,
        sort: &str,
        asked: &Asked,
        what: &str,
        (number, numbers): &(u32, [u64; COUNT]),
        asked_for: impl Fn(&mut [u64]) -> u32,
    ) -> bool {
        for room in [COUNT, self.face.next_call() % (COUNT + 3)] {
            let mut out = Guarded::for_numbers(MARK, room, numbers);
            let answered = asked_for(out.room());
            if answered != *number || !out.is_right() || *asked.lent != *asked.file {
                let text = format!(
                    "{sort}: {what}, out of {room}: library {answered}, {:x?}, second {number}, \
                     {numbers:x?}",
                    out.all()
                );
                self.fault(&text, asked.file);
                return false;
            }
        }
        true
    }
}

/// Nothing is written but the cells, where they are given, as many numbers of `out` as fit, and any
/// numbers into the memory.
fn difference(file: &[u8], call: &Call, answer: &Area) -> Option<String> {
    let (number, told) = answer.as_numbers();
    let [kinds, bits] = answer.taken();
    let mut memory = Guarded::taking(call.filled, call.memory, &[]);
    let mut kinds = Guarded::taking(KIND_MARK, call.rooms[0], kinds);
    let mut bits = Guarded::taking(BIT_MARK, call.rooms[1], bits);
    let mut out = Guarded::for_numbers(MARK, call.out_room, &[told]);
    let lent = Lent { memory: memory.room(), kinds: kinds.room(), bits: bits.room() };
    let answered = cells_into(file, call.rectangle, call.compressor, lent, out.room());
    let right = kinds.is_right() && bits.is_right() && out.is_right() && memory.guards_stay();
    if answered == number && right {
        return None;
    }
    let (out, wrong) = (out.all(), [kinds.first_wrong(), bits.first_wrong()]);
    let around = if memory.guards_stay() { "" } else { "; written around the memory" };
    Some(format!(
        "memory of {}, room for {:?}, out of {}: library {answered}, {out:x?}, second {number}, \
         {told:x}; first kind and bits that differ {wrong:x?}{around}",
        call.memory, call.rooms, call.out_room
    ))
}
