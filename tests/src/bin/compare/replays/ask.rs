//! Asks both implementations for a replay, and the library for its calls by hand.

use gvrs_tests::library::{correct_into, replay_into};
use gvrs_tests::second::correct::Call;
use gvrs_tests::second::replay::{calls_of, replay, Replayed};

use crate::guarded::Guarded;
use crate::run::Run;

const MARK: u64 = 0x5a5a_5a5a_a5a5_a5a5;
const BYTE_MARK: u8 = 0xc3;
/// How many numbers `out` has, in turn.
const OUTS: [usize; 4] = [2, 0, 1, 5];

impl Run {
    /// Asks both for a replay on a buffer whose first `n` bytes are the page: in allocations of exactly
    /// their length, then with other bytes behind the page and guards around; then the library for
    /// the calls one by one. What comes of it, if all give the same.
    pub fn replay(&mut self, sort: &str, buffer: &[u8], n: u64, log: &[u8]) -> Option<Replayed> {
        let replayed = replay(buffer, n, log);
        let question = self.replays.asked(sort);
        let found = bare_difference(buffer, n, log, &replayed)
            .or_else(|| guarded_difference(buffer, n, log, &replayed, OUTS[question % OUTS.len()]))
            .or_else(|| by_hand_difference(buffer, n, log, &replayed));
        if let Some(what) = found {
            let text =
                format!("{sort}: {n} of {} bytes, log of {}: {what}", buffer.len(), log.len());
            self.fault(&text, buffer);
            self.fault(&text, log);
            return None;
        }
        self.replays.answered(replayed.number, replayed.entries);
        Some(replayed)
    }

    /// As `replay`, where the answer is known: its number, the length or the place, and the entries.
    /// True if it comes.
    pub fn replay_is(
        &mut self,
        sort: &str,
        what: &str,
        (buffer, n): (&[u8], usize),
        log: &[u8],
        expected: (u32, u64, u64),
    ) -> bool {
        let Some(replayed) = self.replay(sort, buffer, n as u64, log) else {
            return false;
        };
        let answer = numbers(&replayed);
        if answer != expected {
            let text = format!("{sort}: {what}: {answer:?}, expected {expected:?}");
            self.fault(&text, buffer);
        }
        answer == expected
    }
}

pub fn numbers(replayed: &Replayed) -> (u32, u64, u64) {
    (replayed.number, replayed.length, replayed.entries)
}

/// In allocations of exactly their length, so that valgrind sees what is read and written behind
/// them.
fn bare_difference(buffer: &[u8], n: u64, log: &[u8], replayed: &Replayed) -> Option<String> {
    let mut lent: Box<[u8]> = buffer.into();
    let given: Box<[u8]> = log.into();
    let mut out = Box::new([MARK; 2]);
    let answered = replay_into(&mut lent, n, &given, &mut *out);
    if (answered, out[0], out[1]) != numbers(replayed) {
        return Some(format!("library {answered}, {out:?}, second {:?}", numbers(replayed)));
    }
    if *given != *log {
        return Some("the log has changed".to_string());
    }
    let at = (0..lent.len()).find(|at| lent[*at] != replayed.buffer[*at])?;
    let (found, wanted) = (lent[at], replayed.buffer[at]);
    Some(format!("answer {answered}; at {at} {found:02x} for {wanted:02x}"))
}

/// Between guards, with other bytes behind the page, which stay where no page comes to lie.
fn guarded_difference(
    buffer: &[u8],
    n: u64,
    log: &[u8],
    replayed: &Replayed,
    out_room: usize,
) -> Option<String> {
    let mut others = buffer.to_vec();
    let mut wanted = replayed.buffer.clone();
    let page = usize::try_from(n).map_or(others.len(), |n| n.min(others.len()));
    others[page..].iter_mut().for_each(|byte| *byte = !*byte);
    let end = if [0, 4, 13].contains(&replayed.number) { replayed.length as usize } else { page };
    wanted[end..].copy_from_slice(&others[end..]);
    let mut memory = Guarded::holding(BYTE_MARK, &others, &wanted);
    let (number, first, second) = numbers(replayed);
    let mut out = Guarded::for_numbers(MARK, out_room, &[first, second]);
    let answered = replay_into(memory.room(), n, log, out.room());
    if answered == number && out.is_right() && memory.is_right() {
        return None;
    }
    Some(format!(
        "other bytes behind, out of {out_room}: library {answered}, {:x?}, second {:?}; first byte \
         that differs {:x?}",
        out.all(),
        numbers(replayed),
        memory.first_wrong()
    ))
}

/// The library's own calls, on a copy, up to the first that is refused.
fn by_hand_difference(buffer: &[u8], n: u64, log: &[u8], replayed: &Replayed) -> Option<String> {
    let calls: Vec<Call> = calls_of(buffer, n, log).ok()?;
    let mut hand = Replayed { number: 0, length: n, entries: 0, buffer: buffer.to_vec() };
    for call in &calls {
        let mut out = [MARK];
        hand.number = correct_into(&mut hand.buffer, hand.length, call, &mut out);
        if hand.number != 0 {
            break;
        }
        hand.length = out[0];
        hand.entries += 1;
    }
    if hand == *replayed {
        return None;
    }
    Some(format!("by hand {:?}, replayed {:?}", numbers(&hand), numbers(replayed)))
}
