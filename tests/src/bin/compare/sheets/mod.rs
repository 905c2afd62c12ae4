//! Score sheets moved into pages, and pages out to score sheets (Req 13).

pub mod ask;
mod into;
mod long_files;
mod out;
pub mod pages;
mod sample_sums;
pub mod tally;
mod trips;

use gvrs_tests::prng::Prng;

use crate::run::Run;

pub fn section(run: &mut Run, random: &mut Prng) {
    sample_sums::section(run, random);
    into::section(run, random);
    out::section(run, random);
    trips::section(run, random);
    if !run.small {
        long_files::section(run, random);
    }
}
