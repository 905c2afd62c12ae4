//! Asks both for the first half of the check, and the library for the second.

use gvrs_tests::library::{check_rest, check_start_into};
use gvrs_tests::second::check::Answer;
use gvrs_tests::second::start::{check_start, Start};

use crate::run::Run;

const MARK: u64 = 0x5a5a_5a5a_a5a5_a5a5;
const WHOLE: &str = "whole files of the comparison of checks";

impl Run {
    /// Stages 1 to 5 of the first bytes of a file of that length, with an `out` of two numbers and,
    /// in turn, of none, one and three. Both must agree.
    pub fn start(&mut self, sort: &str, first: &[u8], length: u64) -> Start {
        // An allocation of exactly as many bytes, so that valgrind sees a read behind them.
        let lent: Box<[u8]> = first.into();
        let answer = check_start(first, length);
        let other = [0, 1, 3][self.starts.questions() % 3];
        self.starts.asked(sort, answer);
        for room in [2, other] {
            if let Some(what) = difference(&lent, length, answer, room) {
                let text = format!("first half, {sort}: {} of {length}: {what}", first.len());
                self.fault(&text, first);
            }
        }
        if *lent != *first {
            self.fault(&format!("first half, {sort}: the bytes have changed"), first);
        }
        answer
    }

    /// As `start`, where the answer is known.
    pub fn start_is(&mut self, sort: &str, what: &str, asked: (&[u8], u64), expected: Start) {
        let (first, length) = asked;
        let answer = self.start(sort, first, length);
        if answer != expected {
            let text = format!("first half, {sort}: {what}, stated {length}");
            self.fault(&format!("{text}: expected {expected:?}, second {answer:?}"), first);
        }
    }

    /// "Together they answer as the old check did, on every file": the second half gives the old
    /// answer, and the first, given the whole file, its refusals 1 to 5.
    pub fn halves(&mut self, sort: &str, file: &[u8], answer: Answer) {
        let rest = check_rest(file);
        self.rests[answer.0 as usize] += 1;
        if rest != answer {
            self.fault(&format!("{sort}: second half {rest:?}, second {answer:?}"), file);
        }
        let start = self.start(WHOLE, file, file.len() as u64);
        if !agrees(answer, start) {
            self.fault(&format!("{sort}: first half {start:?}, check {answer:?}"), file);
        }
    }
}

/// Where stages 1 to 5 answer so of a file, the whole check gives the same refusal or goes on.
pub fn agrees(check: Answer, start: Start) -> bool {
    match start.number {
        0 => check.0 == 0 || check.0 > 5,
        number => check == (number, start.place),
    }
}

/// The number does not depend on `out`, which takes as many numbers as fit; what stands behind them
/// and around it stays.
fn difference(first: &[u8], length: u64, answer: Start, room: usize) -> Option<String> {
    let mut memory = [MARK; 6];
    let number = check_start_into(first, length, &mut memory[1..1 + room]);
    let mut expected = [MARK; 6];
    for (at, value) in [answer.place, answer.needed].into_iter().take(room).enumerate() {
        expected[1 + at] = value;
    }
    if number == answer.number && memory == expected {
        return None;
    }
    let wanted = answer.number;
    Some(format!("out of {room}: library {number}, {memory:x?}, second {wanted}, {expected:x?}"))
}
