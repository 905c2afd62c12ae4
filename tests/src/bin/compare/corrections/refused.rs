//! Every set of faults at once: the one that is judged first decides, and nothing is changed.

use gvrs_tests::build::{build, bytes_of, make_checksums_good};
use gvrs_tests::prng::Prng;
use gvrs_tests::second::check::{check, Answer};
use gvrs_tests::second::correct::{correct, Call};
use gvrs_tests::session::Session;
use gvrs_tests::worn_page::{open_worn_page, time, worn_page};

use super::ask::with_room;
use crate::aims;
use crate::damage::{damaged, Aim};
use crate::run::Run;

const SORT: &str = "every set of faults";

/// Pages tried for one set, as not every page needs room.
const MOST_TRIES: usize = 400;

/// What can be wrong with a call, in the order in which it is judged.
#[derive(Clone, Copy, Debug, PartialEq)]
enum Fault {
    /// The page's length is past the buffer.
    Length,
    /// The check refuses the file that is opened.
    File,
    /// The bytes are no open page.
    NotOpen,
    /// An index past the tiles.
    Index,
    /// Another number of cell bytes, or a time of zero.
    Input,
    /// A byte of room short, or more.
    Room,
}

const OPENING: &[Fault] = &[Fault::Length, Fault::File, Fault::Input, Fault::Room];
const STORING: &[Fault] = &[Fault::Length, Fault::NotOpen, Fault::Index, Fault::Input, Fault::Room];
const REMOVING: &[Fault] = &[Fault::Length, Fault::NotOpen, Fault::Index];
const CLOSING: &[Fault] = &[Fault::Length, Fault::NotOpen, Fault::Input, Fault::Room];

const CALLS: [(&str, &[Fault]); 4] =
    [("opening", OPENING), ("storing", STORING), ("removing", REMOVING), ("closing", CLOSING)];

pub fn section(run: &mut Run, random: &mut Prng) {
    let mut aims = aims::all();
    aims.retain(|aim| !aim.has_long_files());
    for (name, faults) in CALLS {
        for set in 0..1 << faults.len() {
            let here = |at: &usize| set >> at & 1 == 1;
            let set: Vec<Fault> = (0..faults.len()).filter(here).map(|at| faults[at]).collect();
            let thing = format!("{name}, at fault: {set:?}");
            run.corrections.want(&thing);
            let mut left = run.times(if set.contains(&Fault::File) { 60 } else { 12 });
            for _ in 0..MOST_TRIES {
                if left > 0 && one_try(run, name, &set, &thing, &aims, random) {
                    left -= 1;
                }
            }
        }
    }
}

/// False where the page at random needs no room for the call.
fn one_try(
    run: &mut Run,
    name: &str,
    set: &[Fault],
    thing: &str,
    aims: &[Aim],
    random: &mut Prng,
) -> bool {
    let description = if name == "opening" { worn_page(random) } else { open_worn_page(random) };
    let page = bytes_of(&description);
    let session = Session::new(&page, 0, random);
    let good = good_call(name, &session, random);
    let room = page.len() + 2 * session.tile_record_length();
    let Ok(new) = correct(&with_room(&page, room), page.len() as u64, &good) else {
        return false;
    };
    let grown = new.len() - page.len();
    if set.contains(&Fault::Room) && grown == 0 {
        return false;
    }
    let call = faulty_call(good, &session, set, random);
    let mut page = page;
    if set.contains(&Fault::File) {
        let aim = &aims[random.below(aims.len())];
        let Some((file, _)) = damaged(&description, &[aim.damage], random) else {
            return false;
        };
        if check(&file).0 == 0 {
            return false;
        }
        page = file;
    }
    if set.contains(&Fault::NotOpen) {
        page = not_open(&page, random);
    }
    let expected = expected(name, set, &page, new.len());
    let mut room = grown + random.below(9);
    if set.contains(&Fault::Room) {
        let any = random.below(grown);
        room = random.pick(&[0, any, grown - 1]);
    }
    let mut buffer = with_room(&page, room);
    let mut n = page.len();
    if set.contains(&Fault::Length) {
        match random.below(3) {
            0 => buffer.truncate(random.below(n.max(1))),
            1 => n = buffer.len() + random.between(1, 8),
            _ => n = random.pick(&[usize::MAX, 1 << 63, buffer.len() + 1]),
        }
    }
    if buffer.len() >= n && set.contains(&Fault::Length) {
        return false;
    }
    if run.correct_is(SORT, thing, (&buffer, n), &call, expected) {
        run.corrections.reached(thing);
    }
    true
}

/// The first fault decides.
fn expected(name: &str, set: &[Fault], page: &[u8], length: usize) -> Answer {
    match set.first() {
        None => (0, length as u64),
        Some(Fault::Length | Fault::Input) => (12, 0),
        Some(Fault::File) => check(page),
        Some(Fault::NotOpen) => (15, 0),
        Some(Fault::Index) => (10, 0),
        Some(Fault::Room) => {
            assert!(name != "removing", "removing needs no room");
            (13, 0)
        }
    }
}

/// A call that can be done with room enough.
fn good_call(name: &str, session: &Session, random: &mut Prng) -> Call {
    let tile = random.below(session.tile_count as usize) as u64;
    match name {
        "opening" => Call::Open { time: time(random) },
        "storing" => Call::Store { tile, cells: random.bytes(session.tile_bytes()) },
        "removing" => Call::Remove { tile },
        _ => Call::Close { time: time(random) },
    }
}

fn faulty_call(good: Call, session: &Session, set: &[Fault], random: &mut Prng) -> Call {
    let mut call = good;
    let count = session.tile_count;
    let past = random.pick(&[count, count + 1, count | 1 << 32, u64::MAX]);
    match &mut call {
        Call::Store { tile, .. } | Call::Remove { tile } if set.contains(&Fault::Index) => {
            *tile = past;
        }
        _ => (),
    }
    if set.contains(&Fault::Input) {
        match &mut call {
            Call::Open { time } | Call::Close { time } => *time = 0,
            Call::Store { cells, .. } if random.one_in(2) => cells.push(0),
            Call::Store { cells, .. } => drop(cells.pop()),
            Call::Remove { .. } | Call::Squeeze { .. } => (),
        }
    }
    call
}

/// Closed, with a wrong checksum or cut, or no page at all.
fn not_open(page: &[u8], random: &mut Prng) -> Vec<u8> {
    let mut page = page.to_vec();
    match random.below(4) {
        0 => {
            page[48..56].fill(0);
            make_checksums_good(&mut page);
        }
        1 => page[48..56].fill(0),
        2 => {
            page.truncate(page.len() - random.between(1, 15));
        }
        _ => page = build(&worn_page(random)).bytes,
    }
    page
}
