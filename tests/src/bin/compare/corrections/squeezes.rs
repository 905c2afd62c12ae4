//! Plans of new starts: judged, made tight, and applied (Req 11). Squeezing stands among the calls of
//! the sequences and of the stopped calls too.

use gvrs_tests::build::bytes_of;
use gvrs_tests::library::{check_plan_into, squeeze_into, tight_plan_into};
use gvrs_tests::plans::{accepted_plan, changed_plan, near_a_power, staying_plan, Place};
use gvrs_tests::prng::Prng;
use gvrs_tests::second::chain::FREE;
use gvrs_tests::second::check::{stages_1_to_4, stages_6_to_8, Answer};
use gvrs_tests::second::correct::{correct, Call};
use gvrs_tests::second::open_page::is_open;
use gvrs_tests::second::squeeze::{kept_of, tight_plan};
use gvrs_tests::worn_page::{open_worn_page, worn_page};

use super::ask::{as_numbers, with_room};
use super::sample;
use crate::guarded::Guarded;
use crate::run::Run;

const SORT: &str = "plans of new starts";
const MARK: u64 = 0x5a5a_5a5a_a5a5_a5a5;

const SAMPLE: [&str; 2] = ["sample: plans that are accepted", "sample: plans that are refused"];
const SAMPLE_BYTES: &str = "sample: squeezed tight, 424 bytes, references 344 and 50";
const BROKEN: [&str; 8] = [
    "a plan with a start too few",
    "a plan with a start too many",
    "a plan that moves a record up, and is else right",
    "a plan with a start that is no multiple of 8, and is else right",
    "a plan with a gap of 8 behind the header",
    "a plan with a gap of 8 between records",
    "a plan that starts inside the header",
    "a plan with two records that overlap",
];
const SWAPPED: &str = "a plan with two starts exchanged";
const NO_START: &str = "a plan without a start";
const NEAR: [&str; 2] =
    ["a plan with a start near a power of two", "a plan with every start near a power of two"];
const TIGHT: [&str; 4] = [
    "the tight plan, with just the room for it",
    "the tight plan, with more room: what stands behind it stays",
    "the tight plan, with too little room: 13 and the number of starts",
    "the tight plan of bytes that are no open page",
];
const TIGHT_FREE: &str = "the tight plan leaves no free record";
const STAYS: &str = "the plan of the old starts is accepted";
const GUARDED: &str = "the plan between guards, numbers as they were";

pub fn section(run: &mut Run, random: &mut Prng) {
    let lists: [&[&str]; 6] = [
        &SAMPLE,
        &BROKEN,
        &NEAR,
        &TIGHT,
        &[SAMPLE_BYTES, SWAPPED, NO_START],
        &[TIGHT_FREE, STAYS, GUARDED],
    ];
    for thing in lists.into_iter().flatten() {
        run.corrections.want(thing);
    }
    samples(run);
    for number in 0..run.times(600) {
        let page = bytes_of(&open_worn_page(random));
        plans(run, &page, random);
        tight(run, &page, random);
        if number % 8 == 0 {
            closed(run, &bytes_of(&worn_page(random)), random);
        }
    }
}

/// The checker by itself and the call give one answer, the second implementation's.
fn judge(run: &mut Run, page: &[u8], n: u64, plan: &[u64]) -> Option<Answer> {
    let call = Call::Squeeze { plan: plan.to_vec() };
    let answer = as_numbers(&run.correct(SORT, page, n, &call)?);
    let mut out = [MARK; 2];
    let number = check_plan_into(page, n, plan, &mut out);
    if (number, out[0]) != answer || out[1] != MARK {
        let text = format!("{SORT}: {plan:?}: the checker {number}, {out:x?}, the call {answer:?}");
        run.fault(&text, page);
        return None;
    }
    run.corrections.told("gvrs_check_plan", number);
    Some(answer)
}

/// A plan with the answer that it has to get.
fn judged(run: &mut Run, thing: &str, page: &[u8], plan: &[u64], wanted: Answer) {
    match judge(run, page, page.len() as u64, plan) {
        Some(answer) if answer == wanted => run.corrections.reached(thing),
        Some(answer) => {
            run.fault(&format!("{thing}: {plan:?}: {answer:?}, expected {wanted:?}"), page)
        }
        None => (),
    }
}

// The sample: document 01's page, opened, tile 0 stored, tile 2 removed.

pub fn sample_page() -> Vec<u8> {
    let mut page = with_room(&sample::page(), 32);
    let store = Call::Store { tile: 0, cells: vec![1, 2, 3, 4, 5, 6, 7, 8] };
    let mut n = page.len() - 32;
    for call in [Call::Open { time: 9 }, store, Call::Remove { tile: 2 }] {
        let new = correct(&page, n as u64, &call).expect("a call of the sample");
        n = new.len();
        page[..n].copy_from_slice(&new);
    }
    page
}

fn samples(run: &mut Run) {
    let page = sample_page();
    let accepted = [
        ([336, 392], 424),
        ([352, 408], 440),
        ([336, 408], 440),
        ([352, 424], 456),
        ([368, 424], 456),
    ];
    for (plan, length) in accepted {
        judged(run, SAMPLE[0], &page, &plan, (0, length));
    }
    let refused: [&[u64]; 9] = [
        &[344, 400],
        &[336, 400],
        &[328, 392],
        &[340, 396],
        &[376, 432],
        &[336],
        &[336, 392, 424],
        &[],
        &[392, 336],
    ];
    for plan in refused {
        judged(run, SAMPLE[1], &page, plan, (12, 0));
    }
    let mut tight = page.clone();
    let mut plan = [336, 392];
    let number = squeeze_into(&mut tight, 456, &mut plan, &mut [0]);
    let four = |at: usize| u32::from_le_bytes(tight[at..at + 4].try_into().expect("four bytes"));
    let good = number == 0
        && [four(80), four(84), four(368)] == [344, 0, 50]
        && tight[392..424] == page[424..456]
        && tight[424..] == page[424..]
        && is_open(&tight[..424]);
    if good {
        run.corrections.reached(SAMPLE_BYTES);
    } else {
        run.fault(&format!("not so: {SAMPLE_BYTES}"), &tight);
    }
}

// Plans at random.

fn plans(run: &mut Run, page: &[u8], random: &mut Prng) {
    let n = page.len() as u64;
    let (end, kept) = kept_of(page).expect("an open page");
    let plan = accepted_plan(end, &kept, random);
    let last = kept[kept.len() - 1].1 as u64;
    judged(run, SORT, page, &plan, (0, plan[plan.len() - 1] + last));
    let staying = staying_plan(&kept);
    judged(run, STAYS, page, &staying, (0, staying[staying.len() - 1] + last));
    for (thing, plan) in broken(end, &kept, &plan) {
        judged(run, thing, page, &plan, (12, 0));
    }
    let changed = changed_plan(&plan, random);
    judge(run, page, n, &changed);
    let mut near = plan.clone();
    let at = random.below(near.len());
    near[at] = near_a_power(random);
    judged(run, NEAR[0], page, &near, (12, 0));
    near.iter_mut().for_each(|start| *start = near_a_power(random));
    judged(run, NEAR[1], page, &near, (12, 0));
    for n in [n + 1, u64::MAX, 1 << 32] {
        judge(run, page, n, &plan);
    }
    guarded(run, page, &plan);
}

/// Plans that break one rule each, as far as the page has one. Of the last record every start that the
/// other rules allow can be named.
fn broken(end: usize, kept: &[Place], plan: &[u64]) -> Vec<(&'static str, Vec<u64>)> {
    let mut broken = Vec::new();
    let mut push = |thing, at: usize, start: u64| {
        let mut plan = plan.to_vec();
        plan[at] = start;
        broken.push((thing, plan));
    };
    let last = plan.len() - 1;
    let before = match last {
        0 => end as u64,
        _ => plan[last - 1] + kept[last - 1].1 as u64,
    };
    let old = kept[last].0 as u64;
    push(BROKEN[2], last, old.max(before) + 16);
    if old >= before + 24 {
        push(BROKEN[3], last, before + 20);
    }
    if old >= before + 8 {
        push(BROKEN[if last == 0 { 4 } else { 5 }], last, before + 8);
    }
    if plan[0] >= 8 {
        push(BROKEN[6], 0, end as u64 - 8);
    }
    if kept[0].0 >= end + 8 {
        push(BROKEN[4], 0, end as u64 + 8);
    }
    if last > 0 {
        push(BROKEN[7], last, before - 8);
        let mut swapped = plan.to_vec();
        swapped.swap(0, last);
        broken.push((SWAPPED, swapped));
    }
    broken.push((BROKEN[0], plan[..last].to_vec()));
    broken.push((BROKEN[1], [plan, &[plan[last] + kept[last].1 as u64]].concat()));
    broken.push((NO_START, Vec::new()));
    broken
}

/// The plan between guards, and the buffer too: what a call leaves of it is what it was.
fn guarded(run: &mut Run, page: &[u8], plan: &[u64]) {
    let mut numbers = [&[MARK], plan, &[MARK]].concat();
    let wanted = numbers.clone();
    let mut buffer = page.to_vec();
    let count = plan.len();
    let number = squeeze_into(&mut buffer, page.len() as u64, &mut numbers[1..=count], &mut [0]);
    if number == 0 && numbers == wanted {
        run.corrections.reached(GUARDED);
    } else {
        run.fault(&format!("not so: {GUARDED}: {number}"), page);
    }
}

// The tight plan.

fn tight(run: &mut Run, page: &[u8], random: &mut Prng) {
    let (end, kept) = kept_of(page).expect("an open page");
    let wanted = tight_plan(end, &kept);
    let count = wanted.len();
    let length = end + kept.iter().map(|(_, length)| length).sum::<usize>();
    let rooms = [count, count + random.between(1, 5), random.below(count)];
    for (room, thing) in rooms.into_iter().zip(TIGHT) {
        let short = room < count;
        let answer = if short { (13, 0) } else { (0, length as u64) };
        made_tight(run, thing, page, room, (answer, count), if short { &[] } else { &wanted });
    }
    let call = Call::Squeeze { plan: wanted };
    let Some(squeezed) = run.corrected(SORT, page, 40, &call) else {
        return;
    };
    let header = stages_1_to_4(&squeezed).expect("a header");
    let records = stages_6_to_8(&squeezed, &header).expect("records");
    if records.iter().all(|record| record.record_type != FREE) {
        run.corrections.reached(TIGHT_FREE);
    } else {
        run.fault(&format!("not so: {TIGHT_FREE}"), page);
    }
}

/// The plan in a room of so many numbers, between guards, with an `out` of 0 to 3.
fn made_tight(
    run: &mut Run,
    thing: &str,
    page: &[u8],
    room: usize,
    ((number, first), count): (Answer, usize),
    starts: &[u64],
) {
    for out_room in 0..=3 {
        let mut plan = Guarded::for_numbers(MARK, room, starts);
        let mut out = Guarded::for_numbers(MARK, out_room, &[first, count as u64]);
        let answered = tight_plan_into(page, page.len() as u64, plan.room(), out.room());
        if answered != number || !plan.is_right() || !out.is_right() {
            let text = format!("{thing}: {answered}, expected {number}: {:x?}", out.all());
            return run.fault(&text, page);
        }
    }
    run.corrections.told("gvrs_tight_plan", number);
    run.corrections.reached(thing);
}

/// On a page that is not open: 15, or 12 for its length, and no number of starts.
fn closed(run: &mut Run, page: &[u8], random: &mut Prng) {
    let n = page.len() as u64;
    let plan: Vec<u64> = (0..random.below(4)).map(|_| random.long()).collect();
    judge(run, page, n, &plan);
    judge(run, page, n + 1, &plan);
    for (n, number) in [(n, 15), (n + 1, 12), (u64::MAX, 12)] {
        let mut numbers = vec![MARK; 4];
        let mut out = [MARK; 3];
        let answered = tight_plan_into(page, n, &mut numbers, &mut out);
        if answered != number || numbers != [MARK; 4] || out != [0, 0, MARK] {
            return run.fault(&format!("{}: {answered}, {out:x?}", TIGHT[3]), page);
        }
        run.corrections.told("gvrs_tight_plan", number);
    }
    run.corrections.reached(TIGHT[3]);
}
