//! Why a file is refused: the first rule that it breaks, of every rule.

pub mod ask;
mod broken;
mod bytes;
mod cuts;
mod directories;
mod fronts;
mod heads;
mod order;
mod out;
mod pages;
mod pairs;
mod records;
mod sample_sums;
pub mod tally;
mod told;

use std::collections::BTreeMap;

use gvrs_tests::prng::Prng;
use gvrs_tests::random_page::random_page;

use crate::aims;
use crate::damage::damaged;
use crate::run::Run;
use broken::{Breaker, Broken};

/// One in so many files of the comparison of checks is asked about too.
pub const ONE_IN: usize = 10;

pub fn section(run: &mut Run, random: &mut Prng) {
    run.explanations.want_every_rule();
    run.explanations.want("a front that a lay-down refuses");
    run.explanations.want("cut in the midst");
    run.explanations.want("cut between records");
    sample_sums::section(run);
    every_rule(run);
    bytes::section(run);
    cuts::section(run);
    out::section(run, random);
    at_random(run, random);
    if !run.small {
        too_long(run);
    }
}

/// Files with each rule broken, but rule 27.
pub fn broken_files() -> Vec<Vec<u8>> {
    let breaker = Breaker::of_every_rule(&pages::rich());
    breaker.made.into_iter().map(|broken| broken.file).collect()
}

/// Each rule, broken alone at its first, a middle and its last number; two at once; fronts.
fn every_rule(run: &mut Run) {
    for page in pages::every().iter().step_by(if run.small { 5 } else { 1 }) {
        let breaker = Breaker::of_every_rule(page);
        breaker.ask(run);
        pairs::section(run, &breaker);
        fronts::section(run, &breaker);
    }
}

/// Every damage of stages 1 to 9, done to pages at random.
fn at_random(run: &mut Run, random: &mut Prng) {
    let mut aims = aims::all();
    aims.retain(|aim| !aim.has_long_files());
    for aim in &aims {
        for _ in 0..run.times(20) {
            let page = random_page(random);
            if let Some((file, _)) = damaged(&page, &[aim.damage], random) {
                ask::ask(run, "damaged", &file);
            }
        }
    }
}

/// Rule 27: a byte too many, alone and with each other rule broken.
fn too_long(run: &mut Run) {
    let breaker = Breaker::of_every_rule(&pages::rich());
    let long = |file: &[u8]| [file, &vec![0; 16_777_217 - file.len()]].concat();
    let mut alone = Breaker::new(&breaker.page);
    alone.file((27, 0, 0), long(&breaker.good.bytes));
    alone.ask(run);
    // Of each rule the last that was made: of a header past the file the longest.
    let last: BTreeMap<u64, &Broken> = breaker.made.iter().map(|it| (it.named.0, it)).collect();
    for Broken { named, file, .. } in last.into_values().filter(|it| it.named.0 != 1) {
        pairs::earlier_is_named(run, [*named, (27, 0, 0)], &breaker.good, &long(file));
    }
}
