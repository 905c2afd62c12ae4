//! Compares the library with the second implementation on many files.
//!
//!     compare [--small | --half] [SEED]
//!
//! The same seed gives the same files. `--small` takes about a hundredth of them, also with `--half`
//! behind it, and `--half` half of them.

mod aimed;
mod aims;
mod allowed;
mod bytes_changed;
mod closing;
mod comparisons;
mod corrections;
mod damage;
mod deeds;
mod explanations;
mod face;
mod fronts;
mod guarded;
mod hostile;
mod keys;
mod lay_downs;
mod lengths;
mod listings;
mod look_ups;
mod made;
mod name_pairs;
mod names;
mod out;
mod packed;
mod reads;
mod replays;
mod run;
mod said;
mod sample_sums;
mod sheets;
mod stack;
mod starts;
mod texts;

use std::env;
use std::process::ExitCode;

use gvrs_tests::clock::processor_time;
use gvrs_tests::prng::Prng;
use run::{Run, Size};

const SEED: u64 = 20_240_614;

fn main() -> ExitCode {
    let mut seed = SEED;
    let mut size = Size::Whole;
    for argument in env::args().skip(1) {
        match (argument.parse(), argument.as_str()) {
            (Ok(number), _) => seed = number,
            (_, "--small") => size = Size::Small,
            (_, "--half") if size == Size::Small => (),
            (_, "--half") => size = Size::Half,
            _ => {
                eprintln!("usage: compare [--small | --half] [SEED]");
                return ExitCode::from(2);
            }
        }
    }
    println!("Seed {seed}");
    if every_section(seed, size) {
        ExitCode::SUCCESS
    } else {
        ExitCode::FAILURE
    }
}

/// Every section. Each has a generator of its own, so that one can change without the others.
fn every_section(seed: u64, size: Size) -> bool {
    let sections: [(&str, fn(&mut Run, &mut Prng)); 28] = [
        ("sample_sums", sample_sums::section),
        ("made", made::section),
        ("allowed", allowed::section),
        ("aimed", aimed::section),
        ("lengths", lengths::section),
        ("bytes_changed", bytes_changed::section),
        ("hostile", hostile::section),
        ("out", out::section),
        ("reads", reads::section),
        ("lay_downs", lay_downs::section),
        ("listings", listings::section),
        ("stack", stack::section),
        ("names", names::section),
        ("texts", texts::section),
        ("starts", starts::section),
        ("name_pairs", name_pairs::section),
        ("look_ups", look_ups::section),
        ("packed", packed::section),
        ("face", face::section),
        ("deeds", deeds::section),
        ("keys", keys::section),
        ("corrections", corrections::section),
        ("comparisons", comparisons::section),
        ("sheets", sheets::section),
        ("replays", replays::section),
        ("fronts", fronts::section),
        ("said", said::section),
        ("explanations", explanations::section),
    ];
    let mut run = Run::new(size);
    let mut seconds = Vec::new();
    for (number, (name, section)) in sections.into_iter().enumerate() {
        let begin = processor_time();
        section(&mut run, &mut Prng::new(seed.wrapping_add(number as u64)));
        seconds.push((name, (processor_time() - begin).as_secs_f64()));
    }
    println!("Seconds of processor time, by section");
    for (name, seconds) in seconds {
        println!("  {seconds:8.1}  {name}");
    }
    run.report()
}
