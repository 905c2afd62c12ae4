//! What a page says of itself: its stored tiles, metadata records and compression methods as lists,
//! and a metadata record by its name and ID.

mod ask;
mod described;
mod long_files;
mod made;
mod metadata;
mod methods;
mod refused;
mod sample_sums;
pub mod tally;
mod texts;
mod threads;
mod tiles;

use gvrs_tests::prng::Prng;

use crate::run::Run;

pub fn section(run: &mut Run, random: &mut Prng) {
    sample_sums::section(run);
    made::section(run, random);
    tiles::section(run, random);
    metadata::section(run, random);
    methods::section(run, random);
    texts::section(run, random);
    refused::section(run, random);
    threads::section(run, random);
    if !run.small {
        long_files::section(run, random);
    }
}
