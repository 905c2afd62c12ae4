//! Listings of files. Some of the files of the other sections are listed too: `Run::compare`.

mod ask;
mod lengths;
mod made;
mod refused;
mod sample;
pub mod tally;

use gvrs_tests::prng::Prng;

use crate::run::Run;

/// Of the files whose checks are compared, one in so many is listed.
pub const ONE_IN: usize = 10;

pub fn section(run: &mut Run, random: &mut Prng) {
    sample::section(run, random);
    made::section(run, random);
    refused::section(run, random);
    lengths::section(run, random);
}
