//! Compressed scores (Req 01): cells and whole tiles out of packed contents, and M32 codes.

mod ask;
mod changed;
pub mod contents;
mod directories;
pub mod holder;
mod m32;
mod made;
mod malformed;
mod numbers;
mod out;
mod refused;
mod sample_sums;
mod shapes;
pub mod tally;
pub mod trees;
mod values;

use gvrs_tests::prng::Prng;

use crate::run::Run;

pub fn section(run: &mut Run, random: &mut Prng) {
    sample_sums::section(run, random);
    m32::section(run, random);
    made::section(run, random);
    shapes::section(run, random);
    trees::section(run, random);
    values::section(run, random);
    malformed::section(run, random);
    numbers::section(run, random);
    directories::section(run, random);
    refused::section(run, random);
    changed::section(run, random);
    out::section(run, random);
}
