//! Cells by every route, and contents of elements.

pub mod ask;
pub mod bytes_changed;
pub mod described;
mod directories;
mod locations;
pub mod long_files;
mod made;
pub mod numbers;
mod out;
mod refused;
mod sample_sums;
pub mod tally;
mod values;

use gvrs_tests::prng::Prng;

use crate::run::Run;

pub fn section(run: &mut Run, random: &mut Prng) {
    sample_sums::section(run, random);
    made::section(run, random);
    locations::section(run, random);
    values::section(run, random);
    numbers::section(run, random);
    refused::section(run, random);
    directories::section(run, random);
    bytes_changed::section(run, random);
    out::section(run, random);
    if !run.small {
        long_files::section(run, random);
    }
}
