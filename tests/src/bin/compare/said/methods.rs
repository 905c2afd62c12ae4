//! The names of compression methods: none to 300 of them.

use gvrs_tests::page::Page;
use gvrs_tests::prng::Prng;
use gvrs_tests::random_page::random_page;

use super::made::of_page;
use crate::run::Run;

const SORT: &str = "0 to 300 methods";

const EVERY_COUNT: &str = "every number of methods from 0 to 300";
const EMPTY: &str = "methods whose names are all empty";
const EQUAL: &str = "methods whose names are equal";
const ANY_BYTES: &str = "methods whose names are any bytes";

const MOST: usize = 300;

pub fn section(run: &mut Run, random: &mut Prng) {
    for thing in [EVERY_COUNT, EMPTY, EQUAL, ANY_BYTES] {
        run.said.want(thing);
    }
    let step = if run.small { 75 } else { 1 };
    let mut every = true;
    for count in (0..=MOST).step_by(step) {
        let (thing, names) = names(count, random);
        let mut page = if count % 8 == 0 { random_page(random) } else { Page::plain() };
        page.methods = names;
        let right = of_page(run, SORT, &page, random);
        every &= right;
        if right && count > 1 {
            run.said.reached(thing);
        }
    }
    if every && step == 1 {
        run.said.reached(EVERY_COUNT);
    }
}

fn names(count: usize, random: &mut Prng) -> (&'static str, Vec<Vec<u8>>) {
    match count % 3 {
        0 => (ANY_BYTES, (0..count).map(|at| random.bytes(at % 7)).collect()),
        1 => (EQUAL, vec![b"GvrsHuffman".to_vec(); count]),
        _ => (EMPTY, vec![Vec::new(); count]),
    }
}
