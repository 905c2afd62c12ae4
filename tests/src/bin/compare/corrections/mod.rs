//! Pages corrected where they lie (Req 03, Req 11).

mod addresses;
pub mod ask;
mod changed;
pub mod long_files;
mod not_open;
mod noted;
mod places;
mod read_back;
mod refused;
mod rooms;
pub mod sample;
mod sequences;
mod squeezes;
mod stopped;
pub mod tally;
mod times;

use gvrs_tests::prng::Prng;

use crate::run::Run;

pub fn section(run: &mut Run, random: &mut Prng) {
    sample::section(run, random);
    sequences::section(run, random);
    places::section(run, random);
    rooms::section(run, random);
    times::section(run, random);
    refused::section(run, random);
    not_open::section(run, random);
    changed::section(run, random);
    addresses::section(run, random);
    if !run.small {
        long_files::section(run, random);
    }
    squeezes::section(run, random);
    stopped::section(run, random);
}
