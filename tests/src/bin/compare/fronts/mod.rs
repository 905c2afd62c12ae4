//! Fronts made from descriptions.

pub mod ask;
mod draft;
mod named;
pub mod sample;
pub mod tally;
mod told;

use gvrs_tests::prng::Prng;

use crate::run::Run;

pub fn section(run: &mut Run, random: &mut Prng) {
    sample::section(run);
    named::section(run);
    for _ in 0..run.times(4_000) {
        told::section(run, random);
    }
    for _ in 0..run.times(2_000) {
        random_numbers(run, random);
    }
}

/// A description with a number, a byte or a length changed, whatever that makes of it.
fn random_numbers(run: &mut Run, random: &mut Prng) {
    let mut given = draft::random(random).given();
    for _ in 0..random.between(1, 3) {
        let number = random.pick(&[0, 1, 5, 6, 13, 14, 65_535, 65_536, u32::MAX, 3]);
        match random.below(6) {
            0 if !given.page.is_empty() => {
                let at = random.below(given.page.len());
                given.page[at] = number;
            }
            1 if !given.elements.is_empty() => {
                let at = random.below(given.elements.len());
                given.elements[at] = number;
            }
            2 => given.page.truncate(random.below(8)),
            3 => given.texts.push(random.byte()),
            4 => given.elements.truncate(random.below(given.elements.len() + 1)),
            _ => given.uuid.resize(random.between(15, 17), 0),
        }
    }
    run.front("numbers changed", &given);
}
