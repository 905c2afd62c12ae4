//! Correction logs replayed on open pages (Req 14).

mod ask;
mod ceiling;
mod hands;
mod malformed;
mod rooms;
mod sample;
pub mod tally;

use gvrs_tests::prng::Prng;

use crate::run::Run;

pub fn section(run: &mut Run, random: &mut Prng) {
    sample::section(run);
    hands::section(run, random);
    malformed::section(run, random);
    rooms::section(run, random);
    if !run.small {
        ceiling::section(run);
    }
}
