//! A front by itself, given as a file: of 1 to 4 the rule that a lay-down refuses it by.

use gvrs_tests::library;
use gvrs_tests::second::check::stages_1_to_4_of_a_front;

use super::ask::ask;
use super::broken::{Breaker, Broken, Made};
use crate::run::Run;

pub fn section(run: &mut Run, breaker: &Breaker) {
    let end = breaker.good.starts[0];
    let of_the_header = |it: &&Broken| matches!(it.made, Made::Patched(_)) && it.named.0 <= 32;
    for broken in breaker.made.iter().filter(of_the_header) {
        front(run, &broken.file[..end]);
    }
    front(run, &breaker.good.bytes[..end]);
}

fn front(run: &mut Run, front: &[u8]) {
    let explained = ask(run, "fronts", front);
    let Err(refusal) = stages_1_to_4_of_a_front(front).map(|_| ()) else {
        return;
    };
    let laid = library::lay_down_into(front, 1, &[], &[], &mut [0; 4096], &mut [0]);
    if explained.answer != refusal || laid != refusal.0 {
        let text = format!("why refused: a front {refusal:?}, {laid}, {explained:?}");
        run.fault(&text, front);
    } else {
        run.explanations.reached("a front that a lay-down refuses");
    }
}
