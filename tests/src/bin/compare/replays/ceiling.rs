//! A replay at the ceiling of the file: 4 where a tile would pass it with room for it, 13 without.

use gvrs_tests::second::correct::Call;
use gvrs_tests::second::replay::log_of;

use crate::corrections::ask::with_room;
use crate::corrections::long_files::{filled, open, CEILING, RECORD};
use crate::run::Run;

const SORT: &str = "replays at the ceiling";

const UP_TO: &str = "a tile up to the ceiling is stored";
const PAST: &str = "the next passes it: 4, behind one entry";
const NO_ROOM: &str = "the next passes it and has no room: 13, behind one entry";
const REMOVED: &str = "a removal between them makes room for it";

pub fn section(run: &mut Run) {
    for thing in [UP_TO, PAST, NO_ROOM, REMOVED] {
        run.replays.want(thing);
    }
    let page = filled(open(), CEILING - RECORD, false);
    let store = |tile| Call::Store { tile, cells: vec![6; 16] };
    let ceiling = CEILING as u64;
    let two = log_of(&[store(1), store(2)]);
    let cases = [
        (UP_TO, RECORD, log_of(&[store(1)]), (0, ceiling, 1)),
        (PAST, 2 * RECORD, two.clone(), (4, ceiling, 1)),
        (NO_ROOM, 2 * RECORD - 1, two, (13, ceiling, 1)),
        (REMOVED, RECORD, log_of(&[store(1), Call::Remove { tile: 1 }, store(2)]), (0, ceiling, 3)),
    ];
    for (thing, room, log, answer) in cases {
        let buffer = with_room(&page, room);
        if run.replay_is(SORT, thing, (&buffer, page.len()), &log, answer) {
            run.replays.reached(thing);
        }
    }
}
