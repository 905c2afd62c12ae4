//! Lists at the ceilings, each in one call within a second: 65,536 tiles, thousands of metadata
//! records, and as many methods as a long header holds.

use std::time::{Duration, Instant};

use gvrs_tests::build::bytes_of;
use gvrs_tests::keys::{alike, page_of, Key};
use gvrs_tests::library::find_metadata;
use gvrs_tests::page::Page;
use gvrs_tests::prng::Prng;
use gvrs_tests::second::elements::FOUND;
use gvrs_tests::second::says::List;

use super::ask::is_the_list;
use crate::reads::ask::Asked;
use crate::reads::long_files::page_of_many_tiles;
use crate::run::Run;

const SORT: &str = "lists at the ceilings";

const TILES: &str = "65,536 tiles in one call, within a second";
const METADATA: &str = "20,000 metadata records in one call, within a second";
const LAST: &str = "the last of 20,000 metadata records by name and ID, within a second";
const METHODS: &str = "1,000,000 methods in one call, within a second";

const RECORDS: usize = 20_000;

pub fn section(run: &mut Run, random: &mut Prng) {
    for thing in [TILES, METADATA, LAST, METHODS] {
        run.said.want(thing);
    }
    let tiles = bytes_of(&page_of_many_tiles(random));
    listed(run, &Asked::new(&tiles), List::Tiles, TILES);
    metadata(run);
    let mut page = Page::plain();
    page.methods = vec![Vec::new(); 1_000_000];
    let methods = bytes_of(&page);
    listed(run, &Asked::new(&methods), List::Methods, METHODS);
}

fn metadata(run: &mut Run) {
    let keys: Vec<Key> = (0..RECORDS).map(|number| (alike(9, number), 7)).collect();
    let listed_so: Vec<usize> = (0..RECORDS).rev().collect();
    let file = bytes_of(&page_of(&keys, &listed_so));
    let asked = Asked::new(&file);
    listed(run, &asked, List::Metadata, METADATA);
    let (name, id) = keys.last().expect("thousands");
    let last = (FOUND, RECORDS as u64 - 1);
    if run.find_is(SORT, &asked, (name, *id), last) {
        in_time(run, &file, LAST, || find_metadata(&file, name, *id) == last);
    }
}

/// By both, some items and all; then the library's time for all.
fn listed(run: &mut Run, asked: &Asked, list: List, thing: &str) {
    if let Some(said) = run.list(SORT, asked, list) {
        in_time(run, asked.file, thing, || is_the_list(asked.file, &said));
    }
}

/// The shortest of three calls, as other work may come between.
fn in_time(run: &mut Run, file: &[u8], thing: &str, is_right: impl Fn() -> bool) {
    let mut shortest = Duration::MAX;
    for _ in 0..3 {
        let begin = Instant::now();
        if !is_right() {
            run.fault(&format!("{thing}: another answer to the same call"), file);
        }
        shortest = shortest.min(begin.elapsed());
    }
    if shortest < Duration::from_secs(1) {
        run.said.reached(thing);
    } else {
        run.fault(&format!("{thing}: {shortest:?}"), file);
    }
}
