//! Files made at random that obey every rule.

use gvrs_tests::build::{build, Built};
use gvrs_tests::prng::Prng;
use gvrs_tests::random_page::random_page;

use crate::run::Run;

pub fn section(run: &mut Run, random: &mut Prng) {
    for _ in 0..run.times(20000) {
        let built = build(&random_page(random));
        fields_tile_the_file(run, &built);
        run.expect("made", "a page at random", &built.bytes, (0, 0));
    }
}

/// The builder's own account: its fields are the file, without a gap.
fn fields_tile_the_file(run: &mut Run, built: &Built) {
    let mut end = 0;
    for field in &built.fields {
        if field.at != end {
            run.fault("the builder's fields leave a gap", &built.bytes);
        }
        end = field.at + field.width;
    }
    if end != built.bytes.len() {
        run.fault("the builder's fields are not the whole file", &built.bytes);
    }
}
