//! Two pages compared (Req 09), entries of five numbers (Req 10).

mod ask;
mod long_files;
mod made;
mod model;
mod refused;
mod sample_sums;
pub mod tally;
mod threads;

use gvrs_tests::prng::Prng;

use crate::run::Run;

pub fn section(run: &mut Run, random: &mut Prng) {
    sample_sums::section(run);
    made::section(run, random);
    refused::section(run, random);
    threads::section(run, random);
    if !run.small {
        long_files::section(run, random);
    }
}
