//! Files that the check refuses: its refusal, whatever is asked for. And files changed at random.

use gvrs_tests::build::build;
use gvrs_tests::page::{Body, Page};
use gvrs_tests::prng::Prng;
use gvrs_tests::random_page::random_page;
use gvrs_tests::second::check::Answer;
use gvrs_tests::second::says::LISTS;

use crate::aims;
use crate::damage::each_damaged;
use crate::reads::ask::Asked;
use crate::reads::bytes_changed::changed_files;
use crate::run::Run;

const SORT: &str = "lists of refused pages";

const LISTED: &str = "a refused page: its lists are the place and 0, and the numbers stay";
const FOUND: &str = "a refused page: a metadata record is the refusal";

pub fn section(run: &mut Run, random: &mut Prng) {
    for thing in [LISTED, FOUND] {
        run.said.want(thing);
    }
    for aim in aims::all() {
        if !(run.small && aim.has_long_files()) {
            let times = run.times(3.min(aim.times));
            each_damaged(&aim, times, random, |page, file, refusal, _| {
                refused(run, page, file, refusal);
            });
        }
    }
    for _ in 0..run.times(600) {
        changed(run, &random_page(random), random);
    }
}

/// A name and an ID of the page as it was, and others.
fn key_of(page: &Page) -> (Vec<u8>, u32) {
    let key = page.records.iter().find_map(|record| match &record.body {
        Body::Metadata(metadata) => Some((metadata.name.clone(), metadata.id)),
        _ => None,
    });
    key.unwrap_or((b"none".to_vec(), 0))
}

fn refused(run: &mut Run, page: &Page, file: &[u8], refusal: Answer) {
    let asked = Asked::new(file);
    let lists = LISTS.map(|list| run.list_is(SORT, &asked, list, &Err(refusal)));
    if lists == [true; 3] {
        run.said.reached(LISTED);
    }
    let (name, id) = key_of(page);
    for name in [&name[..], b""] {
        if run.find_is(SORT, &asked, (name, id), refusal) {
            run.said.reached(FOUND);
        }
    }
}

/// Whatever both answer.
fn changed(run: &mut Run, page: &Page, random: &mut Prng) {
    let built = build(page);
    let (name, id) = key_of(page);
    for (sort, file) in changed_files(&built, random.below(page.tile_count()) as u32, random) {
        let asked = Asked::new(&file);
        for list in LISTS {
            run.list(sort, &asked, list);
        }
        run.find(sort, &asked, &name, id);
    }
}
