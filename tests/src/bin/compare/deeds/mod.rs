//! Scores of rectangles judged (Req 07), by either rule (Req 08).

mod ask;
mod editions;
mod long_files;
mod made;
mod outside;
mod refused;
mod rule;
mod sample_sums;
pub mod scored;
pub mod tally;
mod threads;

use gvrs_tests::prng::Prng;

use crate::run::Run;

pub fn section(run: &mut Run, random: &mut Prng) {
    sample_sums::section(run);
    rule::section(run, random);
    editions::section(run, random);
    made::section(run, random);
    outside::section(run, random);
    refused::section(run, random);
    threads::section(run, random);
    if !run.small {
        long_files::section(run, random);
    }
}
