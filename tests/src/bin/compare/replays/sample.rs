//! The samples of Req 14, on document 01's page of the listing, opened: 424 bytes, tile 2 stored.

use gvrs_tests::second::correct::{correct, Call};
use gvrs_tests::session::tiles_of;

use crate::corrections::ask::with_room;
use crate::corrections::sample::page;
use crate::run::Run;

const SORT: &str = "the samples of Req 14";

const TO_THE_END: &str = "sample: store 0 and remove 2 twice, 3 entries, 456 bytes";
const STOPPED: &str = "sample: room for one tile: 13, 1 entry, 456 bytes, tiles 0 and 2";
const NONE: &str = "sample: a log of 5 bytes does nothing";

pub fn section(run: &mut Run) {
    for thing in [TO_THE_END, STOPPED, NONE] {
        run.replays.want(thing);
    }
    let opened = correct(&page(), 424, &Call::Open { time: 9 }).expect("an open page");
    let mut log = vec![0, 0, 0, 0x18, 1, 1, 0, 0, 0, 0];
    log.extend([0x11; 8]);
    log.extend([2, 0, 0, 0, 2, 2, 0, 0, 0, 2]);
    is(run, TO_THE_END, &opened, 40, &log, (0, 456, 3), &[0]);

    let mut log = vec![0, 0, 0, 0x20, 1, 1, 0, 0, 0, 0];
    log.extend([0x11; 8]);
    log.extend([1, 0, 0, 0, 1]);
    log.extend([0x22; 8]);
    log.extend([2, 0, 0, 0, 2]);
    is(run, STOPPED, &opened, 32, &log, (13, 456, 1), &[0, 2]);

    is(run, NONE, &opened, 0, &[0, 0, 0, 1, 1], (0, 424, 0), &[2]);
}

fn is(
    run: &mut Run,
    thing: &str,
    page: &[u8],
    room: usize,
    log: &[u8],
    answer: (u32, u64, u64),
    tiles: &[u64],
) {
    let buffer = with_room(page, room);
    let Some(replayed) = run.replay(SORT, &buffer, page.len() as u64, log) else {
        return;
    };
    let left = tiles_of(&replayed.buffer[..replayed.length as usize]);
    let found = (replayed.number, replayed.length, replayed.entries);
    if found == answer && left.keys().copied().eq(tiles.iter().copied()) {
        run.replays.reached(thing);
    } else {
        run.fault(&format!("not so: {thing}: {found:?}"), log);
    }
}
