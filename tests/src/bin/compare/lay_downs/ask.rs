//! Asks both implementations to lay down a page.

use gvrs_tests::library;
use gvrs_tests::second::check::Answer;
use gvrs_tests::second::lay_down::{lay_down, Given, Laid};

use crate::run::Run;

const GUARD_BYTE: u8 = 0xc3;
const GUARD_WORD: u64 = 0x5a5a_5a5a_a5a5_a5a5;

/// Bytes on either side of a buffer and of an `out`. Without any they are allocations of just their
/// length, so that valgrind sees a write behind them.
const GUARDS: usize = 16;

/// The library's calls for one lay-down: the length of `out`, and the guards.
const CALLS: [(usize, usize); 4] = [(1, 0), (0, GUARDS), (1, GUARDS), (3, GUARDS)];

impl Run {
    /// Asks both to lay down in a buffer of `room` bytes. What comes of it, if both give the same.
    pub fn lay_down(&mut self, sort: &str, given: &Given, room: usize) -> Option<Laid> {
        let laid = lay_down(given, room);
        self.lay_downs.asked(sort);
        for (number, (out, guards)) in CALLS.into_iter().enumerate() {
            let standing = standing(room, number % 2 == 1);
            let expected = expected(&laid, &standing, out, guards);
            let found = library_leaves(given, &standing, out, guards);
            if let Some(text) = difference(&found, &expected, guards) {
                let text = format!("{sort}: a buffer of {room}, an out of {out}: {text}");
                self.fault(&text, &found.memory[guards..guards + room]);
                return None;
            }
        }
        self.lay_downs.answered(as_numbers(&laid));
        Some(laid)
    }

    /// As `lay_down`, where the refusal is known. True if it comes.
    pub fn refused(
        &mut self,
        sort: &str,
        what: &str,
        lay_down: (&Given, usize),
        number: u32,
    ) -> bool {
        let (given, room) = lay_down;
        let Some(laid) = self.lay_down(sort, given, room) else {
            return false;
        };
        let answer = as_numbers(&laid);
        if answer != (number, 0) {
            let text = format!("{sort}: {what}: {answer:?}, expected refusal {number} at 0");
            self.fault(&text, &given.front);
        }
        answer == (number, 0)
    }
}

/// As `gvrs_lay_down` gives it: 0 and the length, or the refusal's number and place.
pub fn as_numbers(laid: &Laid) -> Answer {
    match laid {
        Ok(file) => (0, file.len() as u64),
        Err(refusal) => *refusal,
    }
}

/// What stands in a buffer before a call. The other form differs in every byte, so that a byte left
/// unwritten shows in one of the two.
fn standing(room: usize, other: bool) -> Vec<u8> {
    let flip = if other { 0xff } else { 0 };
    (0..room).map(|at| ((37 * at) >> 2) as u8 ^ flip).collect()
}

/// What a call leaves behind: its answer, buffer and `out` with their guards, and what it was given.
struct Left {
    number: u32,
    memory: Vec<u8>,
    words: Vec<u64>,
    given_kept: bool,
}

fn library_leaves(given: &Given, standing: &[u8], out: usize, guards: usize) -> Left {
    // Clones have no room to spare, so that valgrind sees a read behind them.
    let lent = given.clone();
    let mut memory = between_guards(standing, guards);
    let mut words = words_between_guards(out, guards);
    let number = library::lay_down_into(
        &lent.front,
        lent.time,
        &lent.indexes,
        &lent.cells,
        &mut memory[guards..guards + standing.len()],
        &mut words[guards / 8..guards / 8 + out],
    );
    Left { number, memory, words, given_kept: lent == *given }
}

/// Done: the file, and behind it what stood there. Refused: all as it stood. `out` takes the length
/// or the place if a number fits, and no more.
fn expected(laid: &Laid, standing: &[u8], out: usize, guards: usize) -> Left {
    let (number, first) = as_numbers(laid);
    let mut memory = between_guards(standing, guards);
    if let Ok(file) = laid {
        memory[guards..guards + file.len()].copy_from_slice(file);
    }
    let mut words = words_between_guards(out, guards);
    if out > 0 {
        words[guards / 8] = first;
    }
    Left { number, memory, words, given_kept: true }
}

fn between_guards(standing: &[u8], guards: usize) -> Vec<u8> {
    let guard = vec![GUARD_BYTE; guards];
    [&guard, standing, &guard].concat()
}

/// An `out` that holds what its guards hold.
fn words_between_guards(out: usize, guards: usize) -> Vec<u64> {
    vec![GUARD_WORD; guards / 8 + out + guards / 8]
}

/// What a call left that is not as expected.
fn difference(found: &Left, expected: &Left, guards: usize) -> Option<String> {
    if found.number != expected.number {
        return Some(format!("answer {}, expected {}", found.number, expected.number));
    }
    if found.words != expected.words {
        return Some(format!("out {:x?}, expected {:x?}", found.words, expected.words));
    }
    if found.given_kept != expected.given_kept {
        return Some("what was given has changed".to_string());
    }
    if found.memory == expected.memory {
        return None;
    }
    let differs = |at: &usize| found.memory[*at] != expected.memory[*at];
    let first = (0..found.memory.len()).find(differs)?;
    let number = (first..found.memory.len()).filter(differs).count();
    Some(format!(
        "answer {}, {number} bytes of the buffer differ, the first at {}: {:02x} for {:02x}",
        found.number,
        first as i64 - guards as i64,
        found.memory[first],
        expected.memory[first]
    ))
}
