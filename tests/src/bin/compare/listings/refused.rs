//! Listings of files that the check refuses: number and place, for every damage of stages 1 to 9.

use gvrs_tests::prng::Prng;
use gvrs_tests::random_page::random_page;

use crate::aims;
use crate::damage::{damaged, Aim};
use crate::run::Run;

const SORT: &str = "damaged, by aim";

/// Pages tried for one aim, as not every damage can be done to every page.
const MOST_TRIES: usize = 4000;

pub fn section(run: &mut Run, random: &mut Prng) {
    for aim in aims::all() {
        if !aim.has_long_files() {
            of_aim(run, &aim, random);
        }
    }
}

fn of_aim(run: &mut Run, aim: &Aim, random: &mut Prng) {
    let thing = format!("refused {}: {}", aim.stage, aim.sentence);
    run.listings.want(&thing);
    let mut left = run.times(12);
    for _ in 0..MOST_TRIES {
        if left == 0 {
            break;
        }
        if let Some((file, place)) = damaged(&random_page(random), &[aim.damage], random) {
            let text = format!("refused {} at {place}\n", aim.stage);
            run.listing_is(SORT, &thing, &file, &text);
            left -= 1;
        }
    }
}
