//! Files cut short and files with bytes behind their end.

use gvrs_tests::build::{build, make_checksums_good, Built};
use gvrs_tests::page::{Body, Page};
use gvrs_tests::prng::Prng;
use gvrs_tests::random_page::random_page;

use crate::run::Run;

pub fn section(run: &mut Run, random: &mut Prng) {
    cut_at_every_length(run, random);
    cut_at_some_lengths(run, random);
    lengthened(run, random);
}

/// A page whose file is short, so that every length can be tried.
fn short_page(random: &mut Prng) -> Built {
    loop {
        let built = build(&random_page(random));
        if built.bytes.len() <= 1500 && built.starts.len() >= 4 {
            return built;
        }
    }
}

fn cut_at_every_length(run: &mut Run, random: &mut Prng) {
    for _ in 0..run.times(40) {
        let built = short_page(random);
        let step = if run.small { 16 } else { 1 };
        for length in (0..built.bytes.len()).step_by(step) {
            let answer = run.compare("cut", &built.bytes[..length]);
            if answer.0 == 0 {
                run.fault("a file that lacks its end is accepted", &built.bytes[..length]);
            }
        }
    }
}

/// Cut between records, where the chain stays whole, and a little beside.
fn cut_at_some_lengths(run: &mut Run, random: &mut Prng) {
    for _ in 0..run.times(2000) {
        let built = build(&random_page(random));
        for start in &built.starts {
            let near = *start - 8 + random.below(17);
            for length in [*start, near.min(built.bytes.len())] {
                run.compare("cut", &built.bytes[..length]);
            }
        }
    }
}

fn lengthened(run: &mut Run, random: &mut Prng) {
    for _ in 0..run.times(500) {
        let page = random_page(random);
        let built = build(&page);
        for count in 1..=24 {
            let mut file = built.bytes.clone();
            let more = if random.one_in(2) { vec![0; count] } else { random.bytes(count) };
            file.extend(more);
            make_checksums_good(&mut file);
            run.compare("lengthened", &file);
        }
        for record_type in 0..=6 {
            lengthened_by_a_record(run, &page, record_type, random);
        }
    }
}

/// A record of any type behind the last, which no directory lists.
fn lengthened_by_a_record(run: &mut Run, page: &Page, record_type: u8, random: &mut Prng) {
    let mut page = page.clone();
    let length = 4 * random.below(10);
    let content = if random.one_in(2) { vec![0; length] } else { random.bytes(length) };
    page.insert(page.records.len(), Body::Raw(record_type, content));
    let built = build(&page);
    run.compare("lengthened", &built.bytes);
}
