//! Asks both to move a score sheet into a page, and a page out to a score sheet.

use gvrs_tests::library::{sheet_in_into, sheet_out_into};
use gvrs_tests::second::check::Answer;
use gvrs_tests::second::lay_down::Laid;
use gvrs_tests::second::sheets::sheet_in;

use super::tally::Way;
use crate::face::ask::memories;
use crate::guarded::Guarded;
use crate::reads::ask::Asked;
use crate::run::Run;

const MARK: u64 = 0x5a5a_5a5a_a5a5_a5a5;
/// What a buffer holds before a call, in turn, so that a byte left unwritten shows with one of them.
const BYTES: [u8; 2] = [0xc3, 0x3c];
/// What the lent memory holds before a call, in turn: scores too.
const MEMORIES: [u32; 4] = [950, 0xffff, 0, u32::MAX];
/// How many numbers `out` has, in turn.
const OUTS: [usize; 4] = [1, 0, 3, 1];

/// What a move in is given, but for the buffer.
#[derive(Clone, PartialEq)]
pub struct MoveIn {
    pub front: Vec<u8>,
    pub time: u64,
    pub sheet: Vec<u8>,
}

impl Run {
    /// Asks both to move a sheet in, into a buffer of exactly the file's length, into a longer one and
    /// into one that is a byte too short; where it is refused otherwise, into none and into some. What
    /// comes of it with room enough, if both give the same each time.
    pub fn sheet_in(&mut self, sort: &str, given: &MoveIn) -> Option<Laid> {
        let laid = sheet_in(&given.front, given.time, &given.sheet, usize::MAX);
        let rooms = match &laid {
            Ok(file) => vec![file.len(), file.len() - 1, file.len() + 5],
            Err(_) => vec![0, 700],
        };
        for room in rooms {
            let _same = self.sheet_in_room(sort, given, room)?;
        }
        Some(laid)
    }

    /// Into a buffer of so many bytes.
    pub fn sheet_in_room(&mut self, sort: &str, given: &MoveIn, room: usize) -> Option<Laid> {
        let laid = sheet_in(&given.front, given.time, &given.sheet, room);
        self.sheets.asked(sort);
        for _ in 0..2 {
            let turn = self.sheets.next_call();
            if let Some(text) = in_difference(given, &laid, room, turn) {
                let text = format!("{sort}: in, a buffer of {room}: {text}");
                self.fault(&text, &given.front);
                self.fault(&text, &given.sheet);
                return None;
            }
        }
        self.sheets.answered(Way::In, as_numbers(&laid).0);
        Some(laid)
    }

    /// As `sheet_in`, where the refusal is known. True if it comes.
    pub fn sheet_in_refused(&mut self, sort: &str, given: &MoveIn, number: u32) -> bool {
        let Some(laid) = self.sheet_in(sort, given) else {
            return false;
        };
        let answer = as_numbers(&laid);
        if answer != (number, 0) {
            let text = format!("{sort}: {answer:?}, expected refusal {number} at 0");
            self.fault(&text, &given.front);
        }
        answer == (number, 0)
    }

    /// Asks both to move a page out, with memories of five lengths, of two where it is refused before
    /// any cell is read; into a buffer of exactly the sheet's length, into a longer one, and into one
    /// that is a byte too short. What comes of it with room enough, if both give the same each time.
    pub fn sheet_out(&mut self, sort: &str, asked: &Asked, compressor: u32) -> Option<Laid> {
        let answer = asked.checked.sheet_out(compressor, u64::MAX);
        let rooms = match &answer {
            Ok(sheet) => vec![sheet.len(), sheet.len() - 1, sheet.len() + 7],
            Err(_) => vec![0, 64],
        };
        let lengths = memories(asked.tile_cells());
        for room in rooms {
            let _same = self.sheet_out_with(sort, asked, compressor, room, &lengths)?;
        }
        Some(answer)
    }

    /// With memories of these lengths, into a buffer of so many bytes.
    pub fn sheet_out_with(
        &mut self,
        sort: &str,
        asked: &Asked,
        compressor: u32,
        room: usize,
        memories: &[usize],
    ) -> Option<Laid> {
        let answer = asked.checked.sheet_out(compressor, room as u64);
        self.sheets.asked(sort);
        for memory in memories {
            let turn = self.sheets.next_call();
            if let Some(text) = out_difference(asked, compressor, &answer, room, *memory, turn) {
                let text =
                    format!("{sort}: out, compressor {compressor}, a buffer of {room}: {text}");
                self.fault(&text, asked.file);
                return None;
            }
        }
        self.sheets.answered(Way::Out, as_numbers(&answer).0);
        Some(answer)
    }

    /// As `sheet_out`, where the answer is known. True if it comes.
    pub fn sheet_out_is(
        &mut self,
        sort: &str,
        asked: &Asked,
        compressor: u32,
        expected: &Laid,
    ) -> bool {
        let answer = self.sheet_out(sort, asked, compressor);
        if answer.as_ref().is_some_and(|answer| answer != expected) {
            let text = format!(
                "{sort}: out: {:?}, expected {:?}",
                answer.as_ref().map(as_numbers),
                as_numbers(expected)
            );
            self.fault(&text, asked.file);
        }
        answer.as_ref() == Some(expected)
    }
}

/// As the library gives it: 0 and the length, or the refusal's number and place.
pub fn as_numbers(laid: &Laid) -> Answer {
    match laid {
        Ok(bytes) => (0, bytes.len() as u64),
        Err(refusal) => *refusal,
    }
}

/// What is written: nothing where it is refused.
fn taken(laid: &Laid) -> &[u8] {
    laid.as_deref().unwrap_or(&[])
}

/// Nothing is written but the file, and as many numbers of `out` as fit.
fn in_difference(given: &MoveIn, laid: &Laid, room: usize, turn: usize) -> Option<String> {
    let (number, first) = as_numbers(laid);
    // Clones have no room to spare, so that valgrind sees a read behind them.
    let lent = given.clone();
    let mut file = Guarded::taking(BYTES[turn % BYTES.len()], room, taken(laid));
    let mut out = Guarded::for_numbers(MARK, OUTS[turn % OUTS.len()], &[first]);
    let answered = sheet_in_into(&lent.front, lent.time, &lent.sheet, file.room(), out.room());
    let kept = if lent == *given { "" } else { "; what was given has changed" };
    if answered == number && file.is_right() && out.is_right() && kept.is_empty() {
        return None;
    }
    Some(format!(
        "library {answered}, {:x?}, second {number}, {first:x}; first wrong byte {:x?}{kept}",
        out.all(),
        file.first_wrong()
    ))
}

/// Nothing is written but the sheet, as many numbers of `out` as fit, and any numbers into the memory.
fn out_difference(
    asked: &Asked,
    compressor: u32,
    answer: &Laid,
    room: usize,
    memory: usize,
    turn: usize,
) -> Option<String> {
    let (number, first) = as_numbers(answer);
    let mut lent = Guarded::taking(MEMORIES[turn % MEMORIES.len()], memory, &[]);
    let mut sheet = Guarded::taking(BYTES[turn % BYTES.len()], room, taken(answer));
    let mut out = Guarded::for_numbers(MARK, OUTS[turn % OUTS.len()], &[first]);
    let answered = sheet_out_into(&asked.lent, compressor, lent.room(), sheet.room(), out.room());
    let file_stays = *asked.lent == *asked.file;
    let rest_stays = lent.guards_stay() && file_stays;
    if answered == number && sheet.is_right() && out.is_right() && rest_stays {
        return None;
    }
    let around = if lent.guards_stay() { "" } else { "; written around the memory" };
    let file = if file_stays { "" } else { "; the file has changed" };
    Some(format!(
        "memory of {memory}: library {answered}, {:x?}, second {number}, {first:x}; first wrong byte \
         {:x?}{around}{file}",
        out.all(),
        sheet.first_wrong()
    ))
}
