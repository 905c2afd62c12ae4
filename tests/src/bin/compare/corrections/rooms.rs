//! Buffers of every length: below the page's 12, up to what is needed 13, then done; and calls that
//! need no room.

use gvrs_tests::build::bytes_of;
use gvrs_tests::prng::Prng;
use gvrs_tests::second::correct::{correct, Call};
use gvrs_tests::session::Session;
use gvrs_tests::worn_page::{open_worn_page, time, worn_page};

use super::ask::with_room;
use crate::run::Run;

const SORT: &str = "buffers of every length";

/// What is needed at most, so that the lengths are not too many.
const MOST: usize = 400;
/// Pages tried for one thing, as not every page needs room for it.
const MOST_TRIES: usize = 2000;

const OPENING: &str = "every length for an opening that replaces the directory";
const STORING: &str = "every length for a storing at the end";
const STORING_OVER: &str = "every length for a storing over a compressed tile, at the end";
const CLOSING: &str = "every length for a closing with a free record";
const NONE: &str = "no room needed: a buffer as long as the page";

pub fn section(run: &mut Run, random: &mut Prng) {
    for thing in [OPENING, STORING, STORING_OVER, CLOSING, NONE] {
        run.corrections.want(thing);
    }
    for thing in [OPENING, STORING, STORING_OVER, CLOSING] {
        let mut left = run.times(12);
        for _ in 0..MOST_TRIES {
            if left > 0 && one_try(run, thing, random) {
                left -= 1;
            }
        }
    }
}

/// False where the page at random needs no room for it, or very much.
fn one_try(run: &mut Run, thing: &'static str, random: &mut Prng) -> bool {
    let page = match thing {
        OPENING => worn_page(random),
        _ => open_worn_page(random),
    };
    let page = bytes_of(&page);
    let session = Session::new(&page, 0, random);
    let cells = random.bytes(session.tile_bytes());
    let tile = |stored: bool| {
        let wanted = |tile: &u64| session.tiles.contains_key(tile) == stored;
        (0..session.tile_count.min(400)).find(wanted)
    };
    let call = match thing {
        OPENING => Some(Call::Open { time: time(random) }),
        STORING => tile(false).map(|tile| Call::Store { tile, cells }),
        STORING_OVER => tile(true).map(|tile| Call::Store { tile, cells }),
        _ => Some(Call::Close { time: time(random) }),
    };
    let Some(call) = call else {
        return false;
    };
    let Ok(new) = correct(&with_room(&page, MOST), page.len() as u64, &call) else {
        return false;
    };
    if new.len() == page.len() {
        if run.correct_is(SORT, NONE, (&page, page.len()), &call, (0, page.len() as u64)) {
            run.corrections.reached(NONE);
        }
        return false;
    }
    every_length(run, thing, &page, new.len(), &call);
    true
}

fn every_length(run: &mut Run, thing: &str, page: &[u8], needed: usize, call: &Call) {
    let buffer = with_room(page, needed - page.len() + 9);
    let step = if run.small { 7 } else { 1 };
    let mut good = true;
    for length in [0, 1, page.len() - 8, page.len() - 1] {
        let short = (&buffer[..length], page.len());
        good &= run.correct_is(SORT, thing, short, call, (12, 0));
    }
    for length in (page.len()..needed).step_by(step) {
        let short = (&buffer[..length], page.len());
        good &= run.correct_is(SORT, thing, short, call, (13, 0));
    }
    for length in [needed, needed + 1, needed + 8, needed + 9] {
        let long = (&buffer[..length], page.len());
        good &= run.correct_is(SORT, thing, long, call, (0, needed as u64));
    }
    if good {
        run.corrections.reached(thing);
    }
}
