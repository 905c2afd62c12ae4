//! Sequences of calls at random on files at random, refused ones, closings and openings again among
//! them, beside a map from index to bytes.

use gvrs_tests::build::bytes_of;
use gvrs_tests::prng::Prng;
use gvrs_tests::second::correct::Call;
use gvrs_tests::session::{Asking, Session};
use gvrs_tests::worn_page::{open_worn_page, time, worn_page};

use super::ask::as_numbers;
use super::noted;
use super::read_back;
use crate::face::mixed::Mixed;
use crate::run::Run;

const SORT: &str = "sequences of calls";

const CALLS: usize = 24;

const STARTS: [&str; 3] = [
    "a sequence from an accepted file",
    "a sequence from a file with packed tiles",
    "a sequence from an open page that no call here has opened",
];
const AGAIN: &str = "a sequence that opens a page again behind its closing";
const REFUSED: &str = "a sequence that goes on behind a refused call";

pub fn section(run: &mut Run, random: &mut Prng) {
    for thing in STARTS.into_iter().chain([AGAIN, REFUSED]) {
        run.corrections.want(thing);
    }
    noted::want(run);
    read_back::want(run);
    for number in 0..run.times(1600) {
        let (start, page, compressor) = match number % 8 {
            0 | 1 => {
                let mixed = Mixed::at_random(random);
                (STARTS[1], mixed.built.bytes, mixed.compressor)
            }
            2 => (STARTS[2], bytes_of(&open_worn_page(random)), u32::from(random.byte())),
            _ => (STARTS[0], bytes_of(&worn_page(random)), u32::from(random.byte())),
        };
        if sequence(run, &page, compressor, random) {
            run.corrections.reached(start);
        }
    }
}

/// True if nothing is at fault.
fn sequence(run: &mut Run, page: &[u8], compressor: u32, random: &mut Prng) -> bool {
    let mut session = Session::new(page, 0, random);
    let record = session.tile_record_length();
    let rooms = [0, 8, record - 8, record, record + 8, 3 * record, 12 * record];
    let room = random.pick(&rooms);
    session.lengthen(room, random);
    let mut openings = 0;
    for _ in 0..CALLS {
        if random.one_in(8) {
            session.lengthen(random.between(1, record), random);
        }
        let asking = session.asking(random);
        let Some(number) = step(run, &mut session, &asking) else {
            return false;
        };
        run.corrections.reached_if(&[(REFUSED, number != 0)]);
        if number == 0 {
            openings += usize::from(matches!(asking.call, Call::Open { .. }));
            if matches!(asking.call, Call::Close { .. }) {
                read_back::read_back(run, &session, compressor, random);
            }
        }
    }
    run.corrections.reached_if(&[(AGAIN, openings > 1)]);
    closed(run, &mut session, compressor, random)
}

/// One call by both; behind it the page is as the session says. The answer's number.
fn step(run: &mut Run, session: &mut Session, asking: &Asking) -> Option<u32> {
    let before = session.page().to_vec();
    let corrected = run.correct(SORT, &session.buffer[..asking.lent], asking.n, &asking.call)?;
    session.take_over(asking, &corrected);
    if let Some(rule) = session.broken() {
        run.fault(&format!("{SORT}: behind {:?}: {rule}", asking.call), session.page());
        return None;
    }
    let squeezed = matches!(asking.call, Call::Squeeze { .. });
    if if squeezed { session.length > before.len() } else { session.length < before.len() } {
        run.fault(&format!("{SORT}: behind {:?}: its length", asking.call), session.page());
        return None;
    }
    if corrected.is_ok() {
        noted::note(run, &before, session.page(), &asking.call);
    }
    let checked = if session.open { (5, 0) } else { (0, 0) };
    run.expect("pages between calls", "its state", session.page(), checked);
    Some(as_numbers(&corrected).0)
}

/// At its end every sequence has a closing that has room.
fn closed(run: &mut Run, session: &mut Session, compressor: u32, random: &mut Prng) -> bool {
    if !session.open {
        return true;
    }
    session.lengthen(session.length, random);
    let (lent, n) = (session.buffer.len(), session.length as u64);
    let asking = Asking { lent, n, call: Call::Close { time: time(random) } };
    let done = step(run, session, &asking) == Some(0);
    if done {
        read_back::read_back(run, session, compressor, random);
    } else {
        run.fault(&format!("{SORT}: the last closing is refused"), session.page());
    }
    done
}
