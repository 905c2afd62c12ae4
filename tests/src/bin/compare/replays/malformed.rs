//! Each way for a log to be malformed, by itself, behind good entries, behind entries that have no
//! room, beside 15 and beside a wrong length of the page; and a log cut at every length.

use gvrs_tests::build::bytes_of;
use gvrs_tests::prng::Prng;
use gvrs_tests::second::correct::Call;
use gvrs_tests::second::replay::log_of;
use gvrs_tests::session::Session;
use gvrs_tests::worn_page::{open_worn_page, worn_page};

use super::ask::numbers;
use crate::corrections::ask::with_room;
use crate::run::Run;

const SORT: &str = "malformed logs";
const CUT: &str = "a log cut at every length: 12, but for whole entries with their length";

const KINDS: [&str; 13] = [
    "no byte",
    "a length one too small",
    "a length one too large",
    "a length that counts itself",
    "a length with its lowest byte first",
    "version 0",
    "version 2",
    "a first byte of an entry 0",
    "a first byte of an entry 3",
    "an index that is the number of tiles",
    "an index past the tiles with a small lowest byte",
    "an entry that the end cuts",
    "a byte behind the last entry",
];

pub fn section(run: &mut Run, random: &mut Prng) {
    for kind in KINDS {
        for place in ["alone", "behind good entries", "behind entries without room"] {
            run.replays.want(&format!("{kind}, {place}: 12"));
        }
        run.replays.want(&format!("{kind}, a page that is not open: 15"));
        run.replays.want(&format!("{kind}, the page's length past the buffer: 12"));
    }
    run.replays.want(CUT);
    for _ in 0..run.times(60) {
        let page = bytes_of(&open_worn_page(random));
        let session = Session::new(&page, 0, random);
        let cells = random.bytes(session.tile_bytes());
        for kind in 0..KINDS.len() {
            malformed(run, &session, kind, &cells, random);
        }
    }
    for _ in 0..run.times(12) {
        cut(run, random);
    }
}

fn malformed(run: &mut Run, session: &Session, kind: usize, cells: &[u8], random: &mut Prng) {
    let tile = random.below(session.tile_count as usize) as u64;
    let good = vec![Call::Remove { tile }, Call::Store { tile, cells: cells.to_vec() }];
    let count = session.tile_count;
    let full: Vec<Call> =
        (0..count.min(9)).map(|tile| Call::Store { tile, cells: cells.to_vec() }).collect();
    let page = session.page();
    let places = [
        ("alone", &[][..]),
        ("behind good entries", &good),
        ("behind entries without room", &full),
    ];
    for (place, before) in places {
        let log = spoiled(kind, before, session, cells);
        let thing = format!("{}, {place}: 12", KINDS[kind]);
        if run.replay_is(SORT, &thing, (page, page.len()), &log, (12, 0, 0)) {
            run.replays.reached(&thing);
        }
    }
    let log = spoiled(kind, &good, session, cells);
    let thing = format!("{}, the page's length past the buffer: 12", KINDS[kind]);
    if run.replay_is(SORT, &thing, (page, page.len() + 1), &log, (12, 0, 0)) {
        run.replays.reached(&thing);
    }
    let shut = bytes_of(&worn_page(random));
    let thing = format!("{}, a page that is not open: 15", KINDS[kind]);
    if run.replay_is(SORT, &thing, (&shut, shut.len()), &log, (15, 0, 0)) {
        run.replays.reached(&thing);
    }
}

/// The log of these calls with one fault of a kind.
fn spoiled(kind: usize, before: &[Call], session: &Session, cells: &[u8]) -> Vec<u8> {
    let mut calls = before.to_vec();
    let past = |tile: u64| Call::Remove { tile };
    match kind {
        9 => calls.push(past(session.tile_count)),
        10 => calls.push(past(1 << 24)),
        11 => calls.push(Call::Store { tile: 0, cells: cells[..cells.len() - 1].to_vec() }),
        _ => {}
    }
    let mut log = log_of(&calls);
    let length = (log.len() - 4) as u32;
    match kind {
        0 => log.clear(),
        1 => log[..4].copy_from_slice(&(length - 1).to_be_bytes()),
        2 => log[..4].copy_from_slice(&(length + 1).to_be_bytes()),
        3 => log[..4].copy_from_slice(&(length + 4).to_be_bytes()),
        4 => log[..4].copy_from_slice(&length.to_le_bytes()),
        5 => log[4] = 0,
        6 => log[4] = 2,
        7 | 8 => {
            log.extend([if kind == 7 { 0 } else { 3 }, 0, 0, 0, 0]);
            log[..4].copy_from_slice(&(length + 5).to_be_bytes());
        }
        12 => {
            log.push(1);
            log[..4].copy_from_slice(&(length + 1).to_be_bytes());
        }
        _ => {}
    }
    log
}

/// Each first part of a log, with its own length, and with that of the whole.
fn cut(run: &mut Run, random: &mut Prng) {
    let page = bytes_of(&open_worn_page(random));
    let session = Session::new(&page, 0, random);
    let tile = random.below(session.tile_count as usize) as u64;
    let cells = random.bytes(session.tile_bytes());
    let calls = [Call::Remove { tile }, Call::Store { tile, cells }, Call::Remove { tile }];
    let log = log_of(&calls);
    let ends: Vec<usize> = (0..=calls.len()).map(|n| log_of(&calls[..n]).len()).collect();
    let buffer = with_room(&page, session.tile_record_length());
    let mut good = true;
    for length in 0..log.len() {
        good &= run.replay_is(SORT, CUT, (&buffer, page.len()), &log[..length], (12, 0, 0));
        let mut own = log[..length].to_vec();
        if length >= 4 {
            own[..4].copy_from_slice(&(length as u32 - 4).to_be_bytes());
        }
        let Some(replayed) = run.replay(SORT, &buffer, page.len() as u64, &own) else {
            return;
        };
        let whole = ends.iter().position(|end| *end == length);
        good &= match whole {
            Some(entries) => numbers(&replayed) == (0, replayed.length, entries as u64),
            None => numbers(&replayed) == (12, 0, 0),
        };
    }
    if good {
        run.replays.reached(CUT);
    } else {
        run.fault(&format!("not so: {CUT}"), &log);
    }
}
