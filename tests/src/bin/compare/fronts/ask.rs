//! Asks both to make a front.

use gvrs_tests::library::front_into;
use gvrs_tests::second::front::{front, Given};
use gvrs_tests::second::lay_down::Laid;

use crate::guarded::Guarded;
use crate::run::Run;
use crate::sheets::ask::as_numbers;

const MARK: u64 = 0x5a5a_5a5a_a5a5_a5a5;
/// What a buffer holds before a call, in turn, so that a byte left unwritten shows with one of them.
const BYTES: [u8; 2] = [0xc3, 0x3c];
/// How many numbers `out` has, in turn.
const OUTS: [usize; 4] = [1, 0, 3, 1];

impl Run {
    /// Asks both to make a front, into a buffer of exactly its length, into one that is a byte too short
    /// and into a longer one; where it is refused otherwise, into none and into some. What comes of it
    /// with room enough, if both give the same each time.
    pub fn front(&mut self, sort: &str, given: &Given) -> Option<Laid> {
        let made = front(given, usize::MAX);
        let rooms = match &made {
            Ok(bytes) => vec![bytes.len(), bytes.len() - 1, bytes.len() + 5, 0],
            Err(_) => vec![0, 900],
        };
        for room in rooms {
            self.front_in_room(sort, given, room)?;
        }
        Some(made)
    }

    fn front_in_room(&mut self, sort: &str, given: &Given, room: usize) -> Option<()> {
        let made = front(given, room);
        self.fronts.asked(sort);
        for _ in 0..2 {
            let turn = self.fronts.next_call();
            if let Some(text) = difference(given, &made, room, turn) {
                self.fault(&format!("{sort}: a buffer of {room}: {text}"), &given.texts);
                return None;
            }
        }
        self.fronts.answered(as_numbers(&made).0);
        Some(())
    }

    /// As `front`, where the answer's number is known, 0 where it is made.
    pub fn front_is(&mut self, thing: &str, given: &Given, number: u32) {
        self.fronts.want(thing);
        let Some(made) = self.front("named fronts", given) else {
            return;
        };
        let answer = as_numbers(&made);
        if answer.0 == number {
            self.fronts.reached(thing);
        } else {
            self.fault(&format!("{thing}: {answer:?}, expected {number}"), &given.texts);
        }
    }
}

/// Nothing is written but the front, and as many numbers of `out` as fit.
fn difference(given: &Given, made: &Laid, room: usize, turn: usize) -> Option<String> {
    let (number, first) = as_numbers(made);
    // Clones have no room to spare, so that valgrind sees a read behind them.
    let lent = given.clone();
    let taken = made.as_deref().unwrap_or(&[]);
    let mut buffer = Guarded::taking(BYTES[turn % BYTES.len()], room, taken);
    let mut out = Guarded::for_numbers(MARK, OUTS[turn % OUTS.len()], &[first]);
    let answered = front_into(&lent, buffer.room(), out.room());
    let kept = if lent == *given { "" } else { "; what was given has changed" };
    if answered == number && buffer.is_right() && out.is_right() && kept.is_empty() {
        return None;
    }
    Some(format!(
        "library {answered}, {:x?}, second {number}, {first:x}; first wrong byte {:x?}{kept}",
        out.all(),
        buffer.first_wrong()
    ))
}
