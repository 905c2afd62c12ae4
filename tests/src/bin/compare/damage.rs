//! Damages: each breaks one rule of a file that was good.

use gvrs_tests::build::{build, make_checksums_good, Built};
use gvrs_tests::page::Page;
use gvrs_tests::prng::Prng;
use gvrs_tests::random_page::random_page;
use gvrs_tests::second::check::{check, Answer};

/// A sentence of document 01 and a damage that it refuses.
pub struct Aim {
    pub stage: u32,
    pub sentence: &'static str,
    pub damage: Damage,
    /// How many files to damage in a whole run.
    pub times: usize,
}

/// A damage gives the place that it is aimed at, or nothing where it can't be done to the file.
#[derive(Clone, Copy)]
pub enum Damage {
    /// To the description; bytes and checksums are made of what it leaves.
    Description(fn(&mut Page, &mut Prng) -> Option<At>),
    /// To the bytes; checksums are made good behind it.
    Bytes(fn(&mut Built, &mut Prng) -> Option<At>),
    /// The same, where the file gets shorter or longer.
    Length(fn(&mut Built, &mut Prng) -> Option<At>),
    /// To the bytes, last of all.
    Checksums(fn(&mut Built, &mut Prng) -> Option<At>),
}

/// The place of a refusal.
#[derive(Clone, Copy)]
pub enum At {
    Zero,
    /// Start of the header record.
    Header,
    /// Start of a record, by its number.
    Record(usize),
    /// This position.
    Position(usize),
}

const TIMES: usize = 200;

/// Pages tried for one aim, as not every damage can be done to every page.
const MOST_TRIES: usize = 4000;

impl Aim {
    pub fn description(
        stage: u32,
        sentence: &'static str,
        damage: fn(&mut Page, &mut Prng) -> Option<At>,
    ) -> Aim {
        Aim { stage, sentence, damage: Damage::Description(damage), times: TIMES }
    }

    pub fn bytes(
        stage: u32,
        sentence: &'static str,
        damage: fn(&mut Built, &mut Prng) -> Option<At>,
    ) -> Aim {
        Aim { stage, sentence, damage: Damage::Bytes(damage), times: TIMES }
    }

    pub fn length(
        stage: u32,
        sentence: &'static str,
        damage: fn(&mut Built, &mut Prng) -> Option<At>,
    ) -> Aim {
        Aim { stage, sentence, damage: Damage::Length(damage), times: TIMES }
    }

    pub fn checksums(
        sentence: &'static str,
        damage: fn(&mut Built, &mut Prng) -> Option<At>,
    ) -> Aim {
        Aim { stage: 7, sentence, damage: Damage::Checksums(damage), times: TIMES }
    }

    /// So many files in a whole run, where files are long.
    pub fn times(self, times: usize) -> Aim {
        Aim { times, ..self }
    }

    pub fn has_long_files(&self) -> bool {
        self.times < TIMES
    }
}

/// The damaged file and the place aimed at by the first of the damages.
pub fn damaged(page: &Page, damages: &[Damage], random: &mut Prng) -> Option<(Vec<u8>, u64)> {
    let (built, at) = damaged_built(page, damages, random)?;
    let place = place(at, &built);
    Some((built.bytes, place))
}

/// Some files damaged with an aim, each with the page that it was and the refusal aimed at. Where
/// the damage misses its aim the comparison of checks has said so, and the file is left out.
pub fn each_damaged(
    aim: &Aim,
    times: usize,
    random: &mut Prng,
    mut asked: impl FnMut(&Page, &[u8], Answer, &mut Prng),
) {
    let mut left = times;
    for _ in 0..MOST_TRIES {
        if left == 0 {
            break;
        }
        let page = random_page(random);
        if let Some((file, place)) = damaged(&page, &[aim.damage], random) {
            left -= 1;
            if check(&file) == (aim.stage, place) {
                asked(&page, &file, (aim.stage, place), random);
            }
        }
    }
}

/// As `damaged`, with the places of fields as they were before. What later stages judge is damaged
/// first, while what it depends on is still whole.
pub fn damaged_built(page: &Page, damages: &[Damage], random: &mut Prng) -> Option<(Built, At)> {
    let mut page = page.clone();
    let mut at = At::Zero;
    for damage in damages.iter().rev() {
        if let Damage::Description(change) = damage {
            at = change(&mut page, random)?;
        }
    }
    let mut built = build(&page);
    for damage in damages.iter().rev() {
        if let Damage::Bytes(change) = damage {
            at = change(&mut built, random)?;
        }
    }
    for damage in damages.iter().rev() {
        if let Damage::Length(change) = damage {
            at = change(&mut built, random)?;
        }
    }
    make_checksums_good(&mut built.bytes);
    for damage in damages.iter().rev() {
        if let Damage::Checksums(change) = damage {
            at = change(&mut built, random)?;
        }
    }
    Some((built, at))
}

fn place(at: At, built: &Built) -> u64 {
    let position = match at {
        At::Zero => 0,
        At::Header => 16,
        At::Record(number) => built.starts[number],
        At::Position(position) => position,
    };
    position as u64
}
