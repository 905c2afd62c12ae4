//! Times: each bit, one byte at each place, all bits, zero. And every number of cell bytes, every
//! index.

use gvrs_tests::build::bytes_of;
use gvrs_tests::prng::Prng;
use gvrs_tests::second::correct::Call;
use gvrs_tests::second::fields::long_at;
use gvrs_tests::session::Session;
use gvrs_tests::worn_page::open_worn_page;

use super::ask::with_room;
use super::sample;
use crate::run::Run;

const SORT: &str = "every time, every index, every number of bytes";

const TIMES: &str = "each bit of both times set and cleared again";
const ZERO: &str = "a time of zero is 12, of both";
const CELLS: &str = "every other number of cell bytes is 12";
const INDEXES: &str = "every index past the tiles is 10";

pub fn section(run: &mut Run, random: &mut Prng) {
    for thing in [TIMES, ZERO, CELLS, INDEXES] {
        run.corrections.want(thing);
    }
    for time in times(random) {
        opened_and_closed(run, time);
    }
    zero(run);
    for _ in 0..run.times(10) {
        cells_and_indexes(run, random);
    }
}

pub fn times(random: &mut Prng) -> Vec<u64> {
    let bits = (0..64).map(|bit| 1 << bit);
    let bytes = (0..8).map(|byte| 0xff << (8 * byte));
    let others = [u64::MAX, u64::MAX - 1, 0x0100_0000_0000_0001, random.long().max(1)];
    bits.chain(bytes).chain(others).collect()
}

fn opened_and_closed(run: &mut Run, time: u64) {
    let page = sample::page();
    let Some(opened) = run.corrected(SORT, &page, 0, &Call::Open { time }) else {
        return;
    };
    let Some(closed) = run.corrected(SORT, &opened, 0, &Call::Close { time }) else {
        return;
    };
    let good = long_at(&opened, 48) == Some(time)
        && long_at(&opened, 40) == long_at(&page, 40)
        && long_at(&closed, 48) == Some(0)
        && long_at(&closed, 40) == Some(time);
    if good {
        run.corrections.reached(TIMES);
    } else {
        run.fault(&format!("not so: {TIMES}: {time:x}"), &closed);
    }
}

fn zero(run: &mut Run) {
    let page = sample::page();
    let mut good = run.correct_is(SORT, ZERO, (&page, 424), &Call::Open { time: 0 }, (12, 0));
    if let Some(opened) = run.corrected(SORT, &page, 0, &Call::Open { time: 1 }) {
        good &= run.correct_is(SORT, ZERO, (&opened, 424), &Call::Close { time: 0 }, (12, 0));
    }
    run.corrections.reached_if(&[(ZERO, good)]);
}

fn cells_and_indexes(run: &mut Run, random: &mut Prng) {
    let page = bytes_of(&open_worn_page(random));
    let session = Session::new(&page, 0, random);
    let buffer = with_room(&page, 2 * session.tile_record_length());
    let (right, count) = (session.tile_bytes(), session.tile_count);
    let on = (&buffer[..], page.len());
    let mut good = true;
    for number in (0..2 * right.min(100) + 20).filter(|number| *number != right) {
        let call = Call::Store { tile: 0, cells: vec![7; number] };
        good &= run.correct_is(SORT, CELLS, on, &call, (12, 0));
    }
    run.corrections.reached_if(&[(CELLS, good)]);
    let mut good = true;
    let far = [1 << 16, 1 << 31, 1 << 32, 1 << 63, u64::MAX].map(|far: u64| far | count);
    for tile in (count..count + 20).chain(far) {
        let cells = vec![7; right];
        good &= run.correct_is(SORT, INDEXES, on, &Call::Store { tile, cells }, (10, 0));
        good &= run.correct_is(SORT, INDEXES, on, &Call::Remove { tile }, (10, 0));
    }
    run.corrections.reached_if(&[(INDEXES, good)]);
}
