//! Pages laid down, and read back.

mod ask;
mod changed;
pub mod draft;
mod every_value;
mod faults;
mod fronts;
mod long_files;
mod made;
mod pairs;
mod read_back;
mod refused;
mod sample;
pub mod tally;

use gvrs_tests::prng::Prng;

use crate::run::Run;

pub fn section(run: &mut Run, random: &mut Prng) {
    sample::section(run, random);
    made::section(run, random);
    fronts::section(run, random);
    refused::section(run, random);
    pairs::section(run, random);
    every_value::section(run, random);
    changed::section(run, random);
    if !run.small {
        long_files::section(run, random);
    }
}
