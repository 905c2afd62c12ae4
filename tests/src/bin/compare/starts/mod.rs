//! The check in two halves (Req 12): stages 1 to 5 of first bytes and a stated length. The second
//! half is asked beside the check, of every file: `Run::compare`.

mod ask;
mod begins_so;
mod desk;
mod lengths;
mod long_files;
mod sample_sums;
pub mod tally;

use gvrs_tests::build::{build, Built};
use gvrs_tests::page::Page;
use gvrs_tests::prng::Prng;
use gvrs_tests::random_page::random_page;

use crate::aims;
use crate::damage::{damaged_built, Aim, Damage};
use crate::run::Run;

/// Pages tried for one damage, as not every damage can be done to every page.
const MOST_TRIES: usize = 8000;

pub fn section(run: &mut Run, random: &mut Prng) {
    run.starts.want(begins_so::ACCEPTED);
    run.starts.want(begins_so::REFUSED_LATER);
    sample_sums::section(run);
    good_files(run, random);
    // Very long files are left out: a length is stated, and need not be had.
    let mut aims = aims::all();
    aims.retain(|aim| aim.stage <= 5 && !aim.has_long_files());
    for aim in &aims {
        damaged_once(run, aim, random);
    }
    damaged_twice(run, &aims, random);
    if !run.small {
        long_files::section(run, random);
    }
}

/// The answer of stages 1 to 5.
fn every_length(run: &mut Run, built: &Built, random: &mut Prng) -> u32 {
    lengths::every_length(run, built, random);
    desk::desk(run, &built.bytes)
}

fn good_files(run: &mut Run, random: &mut Prng) {
    every_length(run, &build(&Page::plain()), random);
    for _ in 0..run.times(60) {
        every_length(run, &build(&random_page(random)), random);
    }
}

fn damaged_once(run: &mut Run, aim: &Aim, random: &mut Prng) {
    let thing = format!("refused {}: {}", aim.stage, aim.sentence);
    run.starts.want(&thing);
    for _ in 0..run.times(3) {
        if let Some(built) = damaged(&[aim.damage], random) {
            if every_length(run, &built, random) == aim.stage {
                run.starts.reached(&thing);
            }
        }
    }
}

/// Each two of stages 1 to 5.
fn damaged_twice(run: &mut Run, aims: &[Aim], random: &mut Prng) {
    for earlier in 1..=5 {
        for later in earlier + 1..=5 {
            for _ in 0..run.times(3) {
                let one = random.pick(&of_stage(aims, earlier));
                let other = random.pick(&of_stage(aims, later));
                if let Some(built) = damaged(&[one, other], random) {
                    every_length(run, &built, random);
                }
            }
        }
    }
}

/// The damages of a stage that leave places of fields as they are.
fn of_stage(aims: &[Aim], stage: u32) -> Vec<Damage> {
    let wanted = |aim: &&Aim| aim.stage == stage && !matches!(aim.damage, Damage::Length(_));
    aims.iter().filter(wanted).map(|aim| aim.damage).collect()
}

/// A page at random to which the damages can be done.
fn damaged(damages: &[Damage], random: &mut Prng) -> Option<Built> {
    (0..MOST_TRIES).find_map(|_| {
        let page = random_page(random);
        damaged_built(&page, damages, random).map(|(built, _)| built)
    })
}
