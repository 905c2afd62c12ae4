//! Times the library's check, checksum, reads, lay-down and unpacking against the second
//! implementation's, in one run, the cells and the scores of rectangles, a deed, two pages compared, a tile
//! stored in an open page, an open page squeezed, score sheets moved in and out, correction logs replayed,
//! the check of hostile files, and why files are refused. Fails where the check, unpacking, the cells or the
//! scores of a rectangle, a deed, a comparison, the storing of a tile, the squeezing of a page, the move of a
//! sheet, the replaying of a log or an explanation take longer than their bounds. With the word `hostile` it
//! measures the hostile files alone, with `explain` explanations alone, with
//! `corrections` the storing of tiles alone, with `squeezes` the squeezing of pages alone, with `deeds` deeds
//! alone, with `cells` the cells and scores alone, with `compare` comparisons alone, with `sheets` score
//! sheets alone, with `replays` the replaying of logs alone.

mod cells;
mod checksum;
mod compare;
mod corrections;
mod deeds;
mod explain;
mod hostile;
mod lay_downs;
mod look_up;
mod packed;
mod reads;
mod replays;
mod shapes;
mod sheets;
mod squeezes;
mod units;
mod unpack;

use std::env;
use std::process::ExitCode;
use std::time::{Duration, Instant};

use units::Units;

/// A measurement is repeated until this much time has gone, at most `MOST_TIMES`.
const ENOUGH: Duration = Duration::from_millis(600);
const MOST_TIMES: usize = 25;

fn main() -> ExitCode {
    if env::args().any(|argument| argument == "hostile") {
        return exit_code(measure_checks(|_| ()));
    }
    if env::args().any(|argument| argument == "explain") {
        return exit_code(explain::measure());
    }
    if env::args().any(|argument| argument == "corrections") {
        return exit_code(corrections::measure());
    }
    if env::args().any(|argument| argument == "squeezes") {
        return exit_code(squeezes::measure());
    }
    if env::args().any(|argument| argument == "replays") {
        return exit_code(replays::measure());
    }
    if env::args().any(|argument| argument == "deeds") {
        return exit_code(deeds::measure());
    }
    if env::args().any(|argument| argument == "cells") {
        return exit_code(cells::measure(&packed::pages()));
    }
    if env::args().any(|argument| argument == "compare") {
        return exit_code(compare::measure(&packed::pages()));
    }
    if env::args().any(|argument| argument == "sheets") {
        return exit_code(sheets::measure(&packed::pages()));
    }
    let checks = measure_checks(units::measure) & explain::measure();
    checksum::measure();
    reads::measure();
    look_up::measure();
    lay_downs::measure();
    let pages = packed::pages();
    let unpacking = unpack::measure(&pages);
    let cells = cells::measure(&pages);
    let deeds = deeds::measure();
    let compared = compare::measure(&pages);
    let corrections = corrections::measure();
    let squeezes = squeezes::measure();
    let sheets = sheets::measure(&pages);
    let replays = replays::measure();
    let corrected = corrections && squeezes && replays;
    exit_code(checks && unpacking && cells && deeds && compared && sheets && corrected)
}

/// The check of some files, and of hostile ones.
fn measure_checks(first: fn(&mut Units)) -> bool {
    let mut units = Units::new();
    first(&mut units);
    hostile::measure(&mut units);
    units.close()
}

fn exit_code(within: bool) -> ExitCode {
    if within {
        ExitCode::SUCCESS
    } else {
        ExitCode::FAILURE
    }
}

/// The shortest of some repetitions.
fn shortest(mut task: impl FnMut()) -> Duration {
    let begin = Instant::now();
    let mut shortest = Duration::MAX;
    for _ in 0..MOST_TIMES {
        let start = Instant::now();
        task();
        shortest = shortest.min(start.elapsed());
        if begin.elapsed() > ENOUGH {
            break;
        }
    }
    shortest
}

fn milliseconds(time: Duration) -> f64 {
    time.as_secs_f64() * 1000.0
}
