//! Buffers that stop a replay at each entry.

use gvrs_tests::build::bytes_of;
use gvrs_tests::page::{Element, Page, SHORT};
use gvrs_tests::prng::Prng;
use gvrs_tests::second::correct::Call;
use gvrs_tests::second::replay::log_of;

use crate::corrections::ask::with_room;
use crate::run::Run;

const SORT: &str = "buffers that stop a replay";

const ENTRIES: usize = 9;
/// A tile record of four Shorts.
const RECORD: usize = 32;

pub fn section(run: &mut Run, random: &mut Prng) {
    for entry in 0..ENTRIES {
        run.replays.want(&stopped_at(entry));
    }
    let mut page = Page::of_sides([6, 6], [2, 2]);
    page.elements = vec![Element::new(SHORT, b"z")];
    page.time_opened = 3;
    page.list_whole_grid();
    let page = bytes_of(&page);
    for _ in 0..run.times(6) {
        let mut tiles: Vec<u64> = (0..ENTRIES as u64).collect();
        random.shuffle(&mut tiles);
        let calls: Vec<Call> =
            tiles.iter().map(|tile| Call::Store { tile: *tile, cells: random.bytes(8) }).collect();
        let log = log_of(&calls);
        for room in 0..=ENTRIES * RECORD + 8 {
            let done = (room / RECORD).min(ENTRIES);
            let number = if done < ENTRIES { 13 } else { 0 };
            let answer = (number, (page.len() + done * RECORD) as u64, done as u64);
            let buffer = with_room(&page, room);
            let thing = stopped_at(done);
            let good = run.replay_is(SORT, &thing, (&buffer, page.len()), &log, answer);
            if good && done < ENTRIES {
                run.replays.reached(&thing);
            }
        }
    }
}

fn stopped_at(entry: usize) -> String {
    format!("a buffer that stops it at entry {entry}")
}
