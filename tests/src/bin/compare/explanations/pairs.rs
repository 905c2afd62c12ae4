//! Two rules broken at once: the earlier is named, at its number and position.

use gvrs_tests::build::{build, Built};
use gvrs_tests::page::Page;

use super::ask::ask;
use super::broken::{overlap, with, Breaker, Broken, Changed, Made};
use super::order::{order, undone, Named};
use crate::run::Run;

/// In a small run one in so many pairs, and of changed descriptions.
const ONE_IN: usize = 400;
const ONE_CHANGE_IN: usize = 20;

/// Every two that do not put bytes at one position.
pub fn section(run: &mut Run, breaker: &Breaker) {
    in_bytes(run, breaker);
    let changes = breaker.made.iter().filter_map(|broken| match &broken.made {
        Made::Changed(changed) => Some((broken.named.0, changed)),
        _ => None,
    });
    for (rule, changed) in changes.step_by(if run.small { ONE_CHANGE_IN } else { 1 }) {
        on_top(run, rule, changed);
    }
    cut(run, breaker);
}

/// Bytes changed, and other bytes.
fn in_bytes(run: &mut Run, breaker: &Breaker) {
    let wanted = |it: &&Broken| matches!(it.made, Made::Patched(_) | Made::Turned(..));
    let single: Vec<&Broken> = breaker.made.iter().filter(wanted).collect();
    let pairs = single
        .iter()
        .enumerate()
        .flat_map(|(at, one)| single[at + 1..].iter().map(move |other| (*one, *other)));
    for (one, other) in pairs.step_by(step(run)) {
        if !overlap(&one.made, &other.made) {
            let file = with(&breaker.good.bytes, &[&one.made, &other.made]);
            earlier_is_named(run, [one.named, other.named], &breaker.good, &file);
        }
    }
}

/// Another description, and every other rule broken in the page that it describes.
fn on_top(run: &mut Run, rule: u64, changed: &Changed) {
    let breaker = Breaker::of_every_rule(&changed.page);
    for other in breaker.made.iter().step_by(step(run)) {
        match &other.made {
            Made::Other => (),
            Made::Changed(both) => described(run, (rule, changed), (other.named, &both.page)),
            made => {
                let named = [changed.named(rule, &breaker.good), other.named];
                let file = with(&breaker.good.bytes, &[made]);
                earlier_is_named(run, named, &breaker.good, &file);
            }
        }
    }
}

/// Both by the description.
fn described(run: &mut Run, (rule, one): (u64, &Changed), (other, both): (Named, &Page)) {
    let built = build(both);
    let named = one.named(rule, &built);
    if !same_thing(named, other) {
        earlier_is_named(run, [named, other], &built, &built.bytes);
    }
}

/// Whether two changes of a description are of one thing, so that the second is all that there is.
fn same_thing(one: Named, other: Named) -> bool {
    match (one.0, other.0) {
        (42..=44, 42..=44) => (one.1, one.2) == (other.1, other.2),
        (one, other) => one == other,
    }
}

/// A page with a broken rule, cut so short that it is no file: rule 1.
fn cut(run: &mut Run, breaker: &Breaker) {
    for broken in breaker.made.iter().filter(|it| it.file.len() > 15).step_by(step(run)) {
        let file = &broken.file[..15];
        earlier_is_named(run, [(1, 0, 0), broken.named], &breaker.good, file);
    }
}

fn step(run: &Run) -> usize {
    if run.small {
        ONE_IN
    } else {
        1
    }
}

pub fn earlier_is_named(run: &mut Run, mut both: [Named; 2], built: &Built, file: &[u8]) {
    both.sort_by_key(|named| order(*named, built));
    let [earlier, later] = both;
    let expected = if undone(earlier.0, later.0) { later } else { earlier };
    let explained = ask(run, "two rules broken", file);
    if explained.named() == expected {
        run.explanations.pair(earlier.0, later.0);
    } else {
        let text = format!("why refused: {earlier:?} and {later:?} broken, {explained:?}");
        run.fault(&text, file);
    }
}
