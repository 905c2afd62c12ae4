//! Logs at random on open pages at random, against the calls by hand and against a map in which only
//! the last entry for each index counts.

use std::collections::BTreeMap;

use gvrs_tests::build::bytes_of;
use gvrs_tests::prng::Prng;
use gvrs_tests::second::correct::Call;
use gvrs_tests::second::open_page::is_open;
use gvrs_tests::second::replay::{log_of, Replayed};
use gvrs_tests::session::{tiles_of, Session};
use gvrs_tests::worn_page::open_worn_page;

use crate::corrections::ask::with_room;
use crate::run::Run;

const SORT: &str = "logs at random";

const TO_THE_END: &str = "a log that is replayed to the end";
const STOPPED: &str = "a log that stops behind entries that were done";
const AT_ONCE: &str = "a log whose first entry stops it";
const AGAIN: &str = "a log with an index many times, stored and removed";
const ABSENT: &str = "a removal of an absent tile is an entry that is done";
const OVER: &str = "a storing over a stored tile is an entry that is done";
const ORDER: &str = "two logs with the same last entries, other pages and the same tiles";

pub fn section(run: &mut Run, random: &mut Prng) {
    for thing in [TO_THE_END, STOPPED, AT_ONCE, AGAIN, ABSENT, OVER, ORDER] {
        run.replays.want(thing);
    }
    for _ in 0..run.times(1200) {
        let page = bytes_of(&open_worn_page(random));
        let session = Session::new(&page, 0, random);
        let calls = entries(&session, random);
        let record = session.tile_record_length();
        let room = random.pick(&[0, 8, record, 2 * record, 5 * record, calls.len() * record]);
        let buffer = with_room(&page, room);
        let log = log_of(&calls);
        let Some(replayed) = run.replay(SORT, &buffer, page.len() as u64, &log) else {
            continue;
        };
        notes(run, &session, &calls, &replayed);
        against_the_map(run, &session, &calls, &replayed);
        if replayed.number == 0 {
            other_log(run, &session, &calls, (&buffer, page.len()), &replayed, random);
        }
    }
}

/// Stores and removals of a few tiles, so that most indexes come again.
fn entries(session: &Session, random: &mut Prng) -> Vec<Call> {
    let count = session.tile_count as usize;
    let few: Vec<u64> = (0..random.between(1, 6)).map(|_| random.below(count) as u64).collect();
    let stored: Vec<u64> = session.tiles.keys().copied().collect();
    (0..random.below(24))
        .map(|_| {
            let any = random.pick(&few);
            let tile = if random.one_in(4) { random.pick_any(&stored).unwrap_or(any) } else { any };
            if random.one_in(3) {
                Call::Remove { tile }
            } else {
                Call::Store { tile, cells: random.bytes(session.tile_bytes()) }
            }
        })
        .collect()
}

/// The tiles by the calls.
fn tiles(session: &Session, calls: &[Call]) -> BTreeMap<u64, Vec<Vec<u8>>> {
    let mut tiles = session.tiles.clone();
    for call in calls {
        match call {
            Call::Store { tile, cells } => drop(tiles.insert(*tile, session.parted(cells))),
            Call::Remove { tile } => drop(tiles.remove(tile)),
            _ => {}
        }
    }
    tiles
}

/// "when no entry is refused, the tiles depend only on the tiles before and the last entry for each
/// index"; stopped, on the entries that were done. The page is open again.
fn against_the_map(run: &mut Run, session: &Session, calls: &[Call], replayed: &Replayed) {
    let page = &replayed.buffer[..replayed.length as usize];
    let done = &calls[..replayed.entries as usize];
    let last: Vec<Call> = (0..done.len())
        .filter(|at| done[at + 1..].iter().all(|later| index(later) != index(&done[*at])))
        .map(|at| done[at].clone())
        .collect();
    if tiles_of(page) != tiles(session, &last) {
        run.fault(&format!("{SORT}: the last entries do not decide"), page);
    }
    if !is_open(page) {
        run.fault(&format!("{SORT}: the page is not open"), page);
    }
}

fn index(call: &Call) -> u64 {
    match call {
        Call::Store { tile, .. } | Call::Remove { tile } => *tile,
        _ => u64::MAX,
    }
}

/// The last entry of each index alone, in any order.
fn other_log(
    run: &mut Run,
    session: &Session,
    calls: &[Call],
    (buffer, n): (&[u8], usize),
    replayed: &Replayed,
    random: &mut Prng,
) {
    let mut last: BTreeMap<u64, Call> = BTreeMap::new();
    for call in calls {
        last.insert(index(call), call.clone());
    }
    let mut fewer: Vec<Call> = last.into_values().collect();
    random.shuffle(&mut fewer);
    let longer = with_room(buffer, fewer.len() * session.tile_record_length());
    let Some(other) = run.replay(SORT, &longer, n as u64, &log_of(&fewer)) else {
        return;
    };
    let (one, two) =
        (&replayed.buffer[..replayed.length as usize], &other.buffer[..other.length as usize]);
    if other.number != 0 || tiles_of(one) != tiles_of(two) {
        return run.fault(&format!("{SORT}: {ORDER}: not so"), two);
    }
    run.replays.reached_if(&[(ORDER, one != two)]);
}

fn notes(run: &mut Run, session: &Session, calls: &[Call], replayed: &Replayed) {
    let stored = |tile: &u64| session.tiles.contains_key(tile);
    let done = &calls[..replayed.entries as usize];
    let first = done.first();
    let many = |call: &Call| done.iter().filter(|other| index(other) == index(call)).count() > 3;
    run.replays.reached_if(&[
        (TO_THE_END, replayed.number == 0 && !calls.is_empty()),
        (STOPPED, replayed.number == 13 && replayed.entries > 0),
        (AT_ONCE, replayed.number == 13 && replayed.entries == 0),
        (AGAIN, done.iter().any(many)),
        (ABSENT, matches!(first, Some(Call::Remove { tile }) if !stored(tile))),
        (OVER, matches!(first, Some(Call::Store { tile, .. }) if stored(tile))),
    ]);
}
