//! Files that a sentence allows and that too strict a check would refuse.

mod ceilings;
mod directories;
mod header;
mod records;
mod unjudged;

use gvrs_tests::prng::Prng;

use crate::run::Run;

/// Names with underscores inside: one, two, as many as fit; a digit behind one at the end.
const UNDERSCORES_INSIDE: [&[u8]; 6] =
    [b"score_rule", b"a__b", b"a_b_c", b"score_1", b"a__1", b"a______________________________1"];

pub fn section(run: &mut Run, random: &mut Prng) {
    header::section(run, random);
    unjudged::section(run, random);
    records::section(run, random);
    directories::section(run, random);
    if !run.small {
        ceilings::section(run, random);
    }
}
