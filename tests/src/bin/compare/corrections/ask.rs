//! Asks both implementations for one call of a correction.

use gvrs_tests::library::correct_into;
use gvrs_tests::second::check::Answer;
use gvrs_tests::second::correct::{correct, Call, Corrected};

use crate::guarded::Guarded;
use crate::run::Run;

const MARK: u64 = 0x5a5a_5a5a_a5a5_a5a5;
const BYTE_MARK: u8 = 0xc3;

impl Run {
    /// Asks both for a call on a buffer whose first `n` bytes are the page, with an `out` of 1 and,
    /// in turn, of 0, 1 and 3; then with other bytes behind the page and guards around. What comes
    /// of it, if both give the same.
    pub fn correct(&mut self, sort: &str, buffer: &[u8], n: u64, call: &Call) -> Option<Corrected> {
        let corrected = correct(buffer, n, call);
        let question = self.corrections.asked(sort);
        let found = bare_difference(buffer, n, call, &corrected).or_else(|| {
            let others = others_behind(buffer, n);
            guarded_difference(&others, n, call, &corrected, [0, 1, 3][question % 3])
        });
        if let Some(what) = found {
            let room = buffer.len();
            let text = format!("{sort}: {}, {n} of {room} bytes: {what}", named(call));
            self.fault(&text, buffer);
            return None;
        }
        self.corrections.answered(call, as_numbers(&corrected));
        Some(corrected)
    }

    /// As `correct`, where the answer is known: 0 and the new length, or the refusal. True if it
    /// comes.
    pub fn correct_is(
        &mut self,
        sort: &str,
        what: &str,
        (buffer, n): (&[u8], usize),
        call: &Call,
        expected: Answer,
    ) -> bool {
        let Some(corrected) = self.correct(sort, buffer, n as u64, call) else {
            return false;
        };
        let answer = as_numbers(&corrected);
        if answer != expected {
            let text =
                format!("{sort}: {what}: {}: {answer:?}, expected {expected:?}", named(call));
            self.fault(&text, buffer);
        }
        answer == expected
    }

    /// As `correct` on a page with so much room behind it, where it has to be done. The new page.
    pub fn corrected(
        &mut self,
        sort: &str,
        page: &[u8],
        room: usize,
        call: &Call,
    ) -> Option<Vec<u8>> {
        let buffer = with_room(page, room);
        match self.correct(sort, &buffer, page.len() as u64, call)? {
            Ok(new) => Some(new),
            Err(refusal) => {
                self.fault(&format!("{sort}: {}: refused {refusal:?}", named(call)), page);
                None
            }
        }
    }
}

/// A page and so many bytes behind it.
pub fn with_room(page: &[u8], room: usize) -> Vec<u8> {
    let behind = (0..room).map(|at| ((37 * at) >> 2) as u8);
    page.iter().copied().chain(behind).collect()
}

/// As the functions give it: 0 and the new length, or the refusal's number and place.
pub fn as_numbers(corrected: &Corrected) -> Answer {
    match corrected {
        Ok(page) => (0, page.len() as u64),
        Err(refusal) => *refusal,
    }
}

/// The call for a message, without its cells.
fn named(call: &Call) -> String {
    match call {
        Call::Store { tile, cells } => format!("store tile {tile}, {} bytes", cells.len()),
        other => format!("{other:?}"),
    }
}

/// What the buffer has to hold behind a call: the page, and behind it what stood there. Refused:
/// all as it stood.
fn left(buffer: &[u8], corrected: &Corrected) -> Vec<u8> {
    let mut left = buffer.to_vec();
    if let Ok(page) = corrected {
        left[..page.len()].copy_from_slice(page);
    }
    left
}

/// The same page with other bytes behind it, so that a byte left unwritten shows in one of the two.
fn others_behind(buffer: &[u8], n: u64) -> Vec<u8> {
    let mut others = buffer.to_vec();
    let page = usize::try_from(n).map_or(others.len(), |n| n.min(others.len()));
    others[page..].iter_mut().for_each(|byte| *byte = !*byte);
    others
}

/// In allocations of exactly their length, so that valgrind sees what is read and written behind
/// them.
fn bare_difference(buffer: &[u8], n: u64, call: &Call, corrected: &Corrected) -> Option<String> {
    let (number, first) = as_numbers(corrected);
    let mut lent: Box<[u8]> = buffer.into();
    let given = call.clone();
    let mut out = Box::new([MARK]);
    let answered = correct_into(&mut lent, n, &given, &mut *out);
    if (answered, out[0]) != (number, first) {
        return Some(format!("library {answered}, {}, second {number}, {first}", out[0]));
    }
    if given != *call {
        return Some("what is given has changed".to_string());
    }
    let wanted = left(buffer, corrected);
    let differs = |at: &usize| lent[*at] != wanted[*at];
    let at = (0..wanted.len()).find(differs)?;
    let many = (at..wanted.len()).filter(differs).count();
    let (found, wanted) = (lent[at], wanted[at]);
    Some(format!("answer {number}; {many} bytes differ, at {at} {found:02x} for {wanted:02x}"))
}

/// Between guards, with an `out` of so many numbers.
fn guarded_difference(
    buffer: &[u8],
    n: u64,
    call: &Call,
    corrected: &Corrected,
    out_room: usize,
) -> Option<String> {
    let (number, first) = as_numbers(corrected);
    let mut memory = Guarded::holding(BYTE_MARK, buffer, &left(buffer, corrected));
    let mut out = Guarded::for_numbers(MARK, out_room, &[first]);
    let answered = correct_into(memory.room(), n, call, out.room());
    if answered == number && out.is_right() && memory.is_right() {
        return None;
    }
    let (out, differs) = (out.all(), memory.first_wrong());
    Some(format!(
        "other bytes behind, out of {out_room}: library {answered}, {out:x?}, second {number}, \
         {first}; first byte that differs {differs:x?}"
    ))
}
