//! The cells of rectangles in one call (Req 07), and what a page and its elements are.

pub mod ask;
pub mod facts;
mod long_files;
pub mod made;
pub mod mixed;
pub mod outside;
mod refused;
pub mod sample_sums;
pub mod tally;
mod threads;

use gvrs_tests::prng::Prng;

use crate::run::Run;

pub fn section(run: &mut Run, random: &mut Prng) {
    sample_sums::section(run);
    made::section(run, random);
    outside::section(run, random);
    facts::section(run, random);
    refused::section(run, random);
    threads::section(run, random);
    if !run.small {
        long_files::section(run, random);
    }
}
