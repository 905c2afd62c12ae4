//! Each refusal by itself.

use gvrs_tests::prng::Prng;

use super::draft::Draft;
use super::faults::{self, faulty, Fault, Kind};
use crate::run::Run;

const SORT: &str = "one fault";

/// Drafts tried for one fault, as not every fault can be made of every draft.
const MOST_TRIES: usize = 4000;

pub fn section(run: &mut Run, random: &mut Prng) {
    let mut faults = faults::all();
    // The file's ceiling has pages of its own.
    faults.retain(|fault| fault.kind != Kind::FileCeiling);
    for fault in &faults {
        run.lay_downs.want(&sentence(fault));
        each(run, fault, random);
    }
}

fn sentence(fault: &Fault) -> String {
    format!("{}: {}", fault.number, fault.sentence)
}

fn each(run: &mut Run, fault: &Fault, random: &mut Prng) {
    let mut left = run.times(if fault.kind == Kind::Input { 300 } else { 60 });
    for _ in 0..MOST_TRIES {
        if left == 0 {
            break;
        }
        let draft = Draft::at_random(random);
        if let Some((given, room)) = faulty(&draft, &[*fault], random) {
            left -= 1;
            if run.refused(SORT, fault.sentence, (&given, room), fault.number) {
                run.lay_downs.reached(&sentence(fault));
            }
        }
    }
}
