//! Files damaged in one rule, and in two rules of different stages.

use gvrs_tests::prng::Prng;
use gvrs_tests::random_page::random_page;

use crate::aims;
use crate::damage::{damaged, Aim, Damage};
use crate::run::Run;

/// Pages tried for one aim, as not every damage can be done to every page.
const MOST_TRIES: usize = 8000;

pub fn section(run: &mut Run, random: &mut Prng) {
    let aims = aims::all();
    for aim in &aims {
        single(run, aim, random);
    }
    for earlier in 1..=9 {
        for later in earlier + 1..=9 {
            pairs(run, &of_stage(&aims, earlier), &of_stage(&aims, later), random);
        }
    }
}

fn single(run: &mut Run, aim: &Aim, random: &mut Prng) {
    run.aim_at(aim.stage, aim.sentence);
    if run.small && aim.has_long_files() {
        return;
    }
    let mut left = run.times(aim.times);
    for _ in 0..MOST_TRIES {
        if left == 0 {
            break;
        }
        let page = random_page(random);
        if let Some((file, place)) = damaged(&page, &[aim.damage], random) {
            run.aim(aim.stage, aim.sentence, &file, place);
            left -= 1;
        }
    }
}

/// The aims of a stage, but for those that take very long files.
fn of_stage(aims: &[Aim], stage: u32) -> Vec<&Aim> {
    aims.iter().filter(|aim| aim.stage == stage && !aim.has_long_files()).collect()
}

/// Two damages of different stages: the earlier stage refuses.
fn pairs(run: &mut Run, earlier: &[&Aim], later: &[&Aim], random: &mut Prng) {
    let stages = (earlier[0].stage, later[0].stage);
    for _ in 0..run.times(600) {
        let (one, other) = (random.pick(earlier), random.pick(later));
        if !can_pair(one, other) {
            continue;
        }
        let page = random_page(random);
        if let Some((file, _)) = damaged(&page, &[one.damage, other.damage], random) {
            let (number, _) = run.compare("damaged twice", &file);
            run.pair(stages, number == one.stage);
        }
    }
}

/// Places of fields no longer hold once a file's length has changed.
fn can_pair(one: &Aim, other: &Aim) -> bool {
    let late = |aim: &Aim| matches!(aim.damage, Damage::Length(_) | Damage::Checksums(_));
    !(late(one) && late(other))
}
