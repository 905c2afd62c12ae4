//! Asks both to judge the scores of a rectangle.

use gvrs_tests::library::deed_into;
use gvrs_tests::second::deeds::Deed;
use gvrs_tests::second::rectangles::Rectangle;

use crate::face::ask::memories;
use crate::guarded::Guarded;
use crate::reads::ask::Asked;
use crate::run::Run;

const MARK: u64 = 0x5a5a_5a5a_a5a5_a5a5;
/// What the lent memory holds before a call, in turn: a score that is certain too.
const MEMORIES: [u32; 4] = [950, 0, u32::MAX, 0x1234_5678];
/// How many numbers `out` has: as many as there are, and others in turn.
const OUT: usize = 4;
const OTHER_OUTS: [usize; 5] = [0, 1, 2, 3, 5];

/// One call.
struct Call {
    rectangle: Rectangle,
    compressor: u32,
    memory: usize,
    /// What is in it.
    filled: u32,
    out_room: usize,
}

impl Run {
    /// Asks for the deed of a rectangle with memories of five lengths, of two where it is refused
    /// before any cell is read. The answer, if both give the same with each.
    pub fn deed(
        &mut self,
        sort: &str,
        asked: &Asked,
        rectangle: Rectangle,
        compressor: u32,
    ) -> Option<Deed> {
        let memories = memories(asked.tile_cells());
        self.deed_with(sort, asked, rectangle, compressor, &memories)
    }

    /// The same with memories of these lengths, each with an `out` of 4; then with one of them in
    /// turn, and in turn with an `out` of 0, 1, 2, 3 and 5.
    pub fn deed_with(
        &mut self,
        sort: &str,
        asked: &Asked,
        rectangle: Rectangle,
        compressor: u32,
        memories: &[usize],
    ) -> Option<Deed> {
        let answer = asked.checked.deed(rectangle, compressor);
        let memories = match answer {
            Deed::Refused((11 | 14, _)) | Deed::Graded { .. } => memories,
            Deed::Refused(_) => &memories[..memories.len().min(2)],
        };
        let turn = self.deeds.asked(sort);
        let outs = OTHER_OUTS.len();
        let other = (memories[turn / outs % memories.len()], OTHER_OUTS[turn % outs]);
        let each = memories.iter().map(|memory| (*memory, OUT)).chain([other]);
        for (memory, out_room) in each {
            let filled = MEMORIES[self.deeds.next_call() % MEMORIES.len()];
            let call = Call { rectangle, compressor, memory, filled, out_room };
            if let Some(what) = difference(asked, &call, &answer) {
                let text = format!("{sort}: {rectangle:?}, compressor {compressor}: {what}");
                self.fault(&text, asked.file);
                return None;
            }
        }
        self.deeds.answered(&answer);
        Some(answer)
    }

    /// As `deed`, where the answer is known. True if it comes.
    pub fn deed_is(
        &mut self,
        sort: &str,
        asked: &Asked,
        rectangle: Rectangle,
        compressor: u32,
        expected: &Deed,
    ) -> bool {
        let answer = self.deed(sort, asked, rectangle, compressor);
        if answer.is_some_and(|answer| answer != *expected) {
            let text = format!(
                "{sort}: {rectangle:?}, compressor {compressor}: {answer:?}, expected {expected:?}"
            );
            self.fault(&text, asked.file);
        }
        answer == Some(*expected)
    }
}

/// Nothing is written but as many numbers of `out` as fit, and any numbers into the memory.
fn difference(asked: &Asked, call: &Call, answer: &Deed) -> Option<String> {
    let (number, numbers) = answer.as_numbers();
    let mut memory = Guarded::taking(call.filled, call.memory, &[]);
    let mut out = Guarded::for_numbers(MARK, call.out_room, &numbers);
    let (rectangle, compressor) = (call.rectangle, call.compressor);
    let answered = deed_into(&asked.lent, rectangle, compressor, memory.room(), out.room());
    let file_stays = *asked.lent == *asked.file;
    if answered == number && out.is_right() && memory.guards_stay() && file_stays {
        return None;
    }
    let around = if memory.guards_stay() { "" } else { "; written around the memory" };
    let file = if file_stays { "" } else { "; the file has changed" };
    Some(format!(
        "memory of {}, out of {}: library {answered}, {:x?}, second {number}, \
         {numbers:x?}{around}{file}",
        call.memory,
        call.out_room,
        out.all()
    ))
}

/// Whether the library gives this answer, with this memory as it is.
pub fn is_the_deed(
    file: &[u8],
    rectangle: Rectangle,
    compressor: u32,
    memory: &mut [u32],
    answer: &Deed,
) -> bool {
    let mut out = [u64::MAX; 4];
    let number = deed_into(file, rectangle, compressor, memory, &mut out);
    (number, out) == answer.as_numbers()
}
