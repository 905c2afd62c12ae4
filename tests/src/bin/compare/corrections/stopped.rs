//! Calls stopped after any number of byte stores (Req 05): a cut leaves the old page, the new page,
//! or a file refused with 5.

use gvrs_tests::build::{bytes_of, make_checksum_good};
use gvrs_tests::library::{self, correct_stopped_into};
use gvrs_tests::plans::accepted_plan;
use gvrs_tests::prng::Prng;
use gvrs_tests::second::check::check;
use gvrs_tests::second::correct::{correct, Call, Corrected};
use gvrs_tests::second::squeeze::kept_of;
use gvrs_tests::session::{Asking, Session};
use gvrs_tests::worn_page::{open_worn_page, time, worn_page};

use super::ask::{as_numbers, with_room};
use super::sample;
use super::squeezes;
use super::times::times;
use crate::run::Run;

const SORT: &str = "calls stopped after any number of stores";

const CALLS: usize = 12;

/// Of a call of more stores than twice this, so many of the first and of the last, and some between.
const EACH_END: u64 = 200;
const BETWEEN: usize = 40;

const MARK: u64 = 0x5a5a_5a5a_a5a5_a5a5;

const EVERY_STOP: [&str; 5] = [
    "opening stopped after each of its stores",
    "storing stopped after each of its stores",
    "removing stopped after each of its stores",
    "closing stopped after each of its stores",
    "squeezing stopped after each of its stores",
];
const LONG: &str = "a call of very many stores stopped";
const REFUSED: &str = "a refused call makes no store";
const SAMPLE: [&str; 3] = [
    "sample: opened with 0x0100, each of 20 stores",
    "sample: closed with 7, each of 20 stores",
    "sample: squeezed tight, each of 108 stores",
];
const TIMES: &str = "stopped with one byte of the time at each place, and with all";

pub fn section(run: &mut Run, random: &mut Prng) {
    for thing in EVERY_STOP.into_iter().chain(SAMPLE) {
        run.corrections.want(thing);
    }
    for thing in [LONG, REFUSED, TIMES] {
        run.corrections.want(thing);
    }
    samples(run);
    for time in times(random) {
        opened_and_closed(run, time);
    }
    for _ in 0..run.times(400) {
        squeezed(run, &bytes_of(&open_worn_page(random)), random);
    }
    for number in 0..run.times(60) {
        let page = if number % 4 == 0 { open_worn_page(random) } else { worn_page(random) };
        sequence(run, &bytes_of(&page), random);
    }
}

/// Random calls, each stopped everywhere and then made whole.
fn sequence(run: &mut Run, page: &[u8], random: &mut Prng) {
    let mut session = Session::new(page, 0, random);
    let record = session.tile_record_length();
    session.lengthen(random.between(0, 4 * record), random);
    for number in 0..=CALLS {
        let mut asking = session.asking(random);
        if number == CALLS {
            session.lengthen(session.length, random);
            let (lent, n) = (session.buffer.len(), session.length as u64);
            asking = Asking { lent, n, call: Call::Close { time: time(random) } };
        }
        let buffer = session.buffer[..asking.lent].to_vec();
        let corrected = correct(&buffer, asking.n, &asking.call);
        if !stopped_everywhere(run, &buffer, asking.n, &asking.call, &corrected, random) {
            return;
        }
        session.take_over(&asking, &corrected);
    }
}

/// An open page with few bytes of records, squeezed by a plan at random.
fn squeezed(run: &mut Run, page: &[u8], random: &mut Prng) {
    let (end, kept) = kept_of(page).expect("an open page");
    if page.len() - end + 20 > 2 * EACH_END as usize {
        return;
    }
    let call = Call::Squeeze { plan: accepted_plan(end, &kept, random) };
    let buffer = with_room(page, random.below(40));
    let corrected = correct(&buffer, page.len() as u64, &call);
    stopped_everywhere(run, &buffer, page.len() as u64, &call, &corrected, random);
}

fn opened_and_closed(run: &mut Run, time: u64) {
    let mut random = Prng::new(time);
    let page = sample::page();
    let open = Call::Open { time };
    let opened = correct(&page, page.len() as u64, &open);
    let mut good = stopped_everywhere(run, &page, page.len() as u64, &open, &opened, &mut random);
    if let Ok(opened) = opened {
        let close = Call::Close { time };
        let n = opened.len() as u64;
        let closed = correct(&opened, n, &close);
        good &= stopped_everywhere(run, &opened, n, &close, &closed, &mut random);
    }
    run.corrections.reached_if(&[(TIMES, good)]);
}

/// What a stopped call leaves: its answer, both numbers of `out`, and the buffer.
struct Left {
    answer: (u32, u64),
    stores: u64,
    buffer: Vec<u8>,
}

fn stopped(buffer: &[u8], n: u64, call: &Call, stores: u64) -> Left {
    let mut lent: Box<[u8]> = buffer.into();
    let mut out = [MARK; 2];
    let number = correct_stopped_into(&mut lent, n, call, stores, &mut out);
    Left { answer: (number, out[0]), stores: out[1], buffer: lent.into_vec() }
}

/// The call at every number of stores. True if all holds that has to.
fn stopped_everywhere(
    run: &mut Run,
    buffer: &[u8],
    n: u64,
    call: &Call,
    corrected: &Corrected,
    random: &mut Prng,
) -> bool {
    run.corrections.asked(SORT);
    let found = first_wrong(run, buffer, n, call, corrected, random);
    if let Some(what) = &found {
        run.fault(&format!("{SORT}: {call:?}, {n} of {}: {what}", buffer.len()), buffer);
    }
    found.is_none()
}

fn first_wrong(
    run: &mut Run,
    buffer: &[u8],
    n: u64,
    call: &Call,
    corrected: &Corrected,
    random: &mut Prng,
) -> Option<String> {
    let answer = as_numbers(corrected);
    let whole = stopped(buffer, n, call, u64::MAX);
    if whole.answer != answer {
        return Some(format!("whole: {:?}, expected {answer:?}", whole.answer));
    }
    let Ok(page) = corrected else {
        return refused(run, buffer, n, call, &whole);
    };
    let mut wanted = buffer.to_vec();
    wanted[..page.len()].copy_from_slice(page);
    if whole.buffer != wanted {
        return Some("whole: another page".to_string());
    }
    let all = whole.stores;
    for more in [all, all.saturating_add(1), all.saturating_add(1000)] {
        let left = stopped(buffer, n, call, more);
        if left.buffer != wanted || left.stores != all || left.answer != answer {
            return Some(format!("{more} stores, more than all of {all}: another page"));
        }
    }
    let mut before: Option<(u64, Vec<u8>)> = None;
    for stores in stops(all, random) {
        let left = stopped(buffer, n, call, stores);
        if left.answer != answer || left.stores != stores {
            return Some(format!("{stores} of {all}: {:?}, {} made", left.answer, left.stores));
        }
        if stores == 0 && left.buffer != buffer {
            return Some("no store: another buffer".to_string());
        }
        if let Some((_, last)) = before.filter(|(number, _)| number + 1 == stores) {
            let differ = last.iter().zip(&left.buffer).filter(|(one, other)| one != other).count();
            if differ > 1 {
                return Some(format!("store {stores} of {all} changes {differ} bytes"));
            }
        }
        let lengths = [n as usize, page.len()];
        if let Some(what) = checked(&left.buffer, lengths, call, (stores, all), random) {
            return Some(format!("{stores} of {all}: {what}"));
        }
        before = Some((stores, left.buffer));
    }
    let every = all <= 2 * EACH_END;
    let function = match call {
        Call::Open { .. } => 0,
        Call::Store { .. } => 1,
        Call::Remove { .. } => 2,
        Call::Close { .. } => 3,
        Call::Squeeze { .. } => 4,
    };
    run.corrections.reached_if(&[(EVERY_STOP[function], every && all > 0), (LONG, !every)]);
    None
}

fn refused(run: &mut Run, buffer: &[u8], n: u64, call: &Call, whole: &Left) -> Option<String> {
    for stores in [0, 1, 20, u64::MAX] {
        let left = stopped(buffer, n, call, stores);
        if left.stores != 0 || left.buffer != buffer || left.answer != whole.answer {
            return Some(format!("refused, {stores} allowed, {} made", left.stores));
        }
    }
    run.corrections.reached(REFUSED);
    None
}

/// Every number of stores up to all, or of very many the first, the last and some between, each of
/// these with the next.
fn stops(all: u64, random: &mut Prng) -> Vec<u64> {
    if all <= 2 * EACH_END {
        return (0..=all).collect();
    }
    let mut stops: Vec<u64> = (0..=EACH_END).chain(all - EACH_END..=all).collect();
    for _ in 0..BETWEEN {
        let any = random.below((all - 1) as usize) as u64;
        stops.extend([any, any + 1]);
    }
    stops.sort_unstable();
    stops.dedup();
    stops
}

/// Before the first store of an opening and behind the last of a closing the page is accepted, at
/// its own length; at any other time it is refused with 5, whatever length it has reached.
fn checked(
    buffer: &[u8],
    [old, new]: [usize; 2],
    call: &Call,
    (stores, all): (u64, u64),
    random: &mut Prng,
) -> Option<String> {
    let is = |length: usize, wanted| {
        let answers = [library::check(&buffer[..length]), check(&buffer[..length])];
        let what = format!("{answers:?} of {length} bytes, expected {wanted:?}");
        (answers != [wanted; 2]).then_some(what)
    };
    match call {
        Call::Open { .. } if stores == 0 => return is(old, (0, 0)),
        Call::Close { .. } if stores == all => return is(new, (0, 0)),
        _ => (),
    }
    let header = 16 + u32::from_le_bytes(buffer[16..20].try_into().expect("four bytes")) as usize;
    let any = random.between(header, buffer.len());
    let between = random.between(old.min(new), old.max(new));
    [old, new, between, any, header, buffer.len()].into_iter().find_map(|at| is(at, (5, 0)))
}

/// Req 05's sample, store by store: opened with 0x0100, then closed with 7; and Req 11's, squeezed
/// tight.
fn samples(run: &mut Run) {
    let mut page = with_room(&sample::page(), 8);
    let mut opened = page.clone();
    opened[48..56].copy_from_slice(&0x0100u64.to_le_bytes());
    opened[56..64].fill(0);
    make_checksum_good(&mut opened[16..336], true);
    let places: Vec<usize> =
        [49, 48].into_iter().chain(50..56).chain(56..64).chain(332..336).collect();
    each_store(run, SAMPLE[0], (&page, 424), &Call::Open { time: 0x0100 }, &places, &opened);
    page = opened.clone();
    let mut closed = opened;
    closed[40..48].copy_from_slice(&7u64.to_le_bytes());
    closed[48..56].fill(0);
    make_checksum_good(&mut closed[16..336], true);
    let places: Vec<usize> =
        (40..48).chain([48]).chain(50..56).chain(332..336).chain([49]).collect();
    each_store(run, SAMPLE[1], (&page, 424), &Call::Close { time: 7 }, &places, &closed);
    let worn = squeezes::sample_page();
    let squeeze = Call::Squeeze { plan: vec![336, 392] };
    let mut tight = worn.clone();
    let new = correct(&worn, 456, &squeeze).expect("the sample squeezed");
    tight[..new.len()].copy_from_slice(&new);
    let places: Vec<usize> = (336..424).chain(64..72).chain(80..88).chain(332..336).collect();
    each_store(run, SAMPLE[2], (&worn, 456), &squeeze, &places, &tight);
}

fn each_store(
    run: &mut Run,
    thing: &str,
    (page, n): (&[u8], u64),
    call: &Call,
    places: &[usize],
    wanted: &[u8],
) {
    let mut expected = page.to_vec();
    let all = stopped(page, n, call, u64::MAX).stores;
    let mut good = places.len() as u64 == all && stopped(page, n, call, 0).buffer == page;
    for (number, at) in places.iter().enumerate() {
        expected[*at] = wanted[*at];
        good &= stopped(page, n, call, number as u64 + 1).buffer == expected;
    }
    if good && expected == wanted {
        run.corrections.reached(thing);
    } else {
        run.fault(&format!("not so: {thing}"), page);
    }
}
