//! A correction log replayed on an open page of 65,536 tiles of 56 Shorts, half of them stored, against
//! checks of the file that was opened: tiles stored anew, stored over and removed by turns, for each entry;
//! and tiles stored over alone, for the whole log.

use std::collections::BTreeMap;
use std::hint::black_box;
use std::time::{Duration, Instant};

use gvrs_tests::build::bytes_of;
use gvrs_tests::library;
use gvrs_tests::page::{Body, Element, Page, Record, Tile, SHORT};
use gvrs_tests::second::correct::Call;
use gvrs_tests::second::replay::log_of;
use gvrs_tests::session::tiles_of;

use crate::shapes::CEILING;
use crate::{milliseconds, shortest};

const TILES: u32 = 65_536;
const TILE: [u32; 2] = [7, 8];
const TILE_BYTES: usize = 112;

/// An entry takes at most so many checks where tiles are stored anew, stored over and removed by turns.
const MIXED_BOUND: f64 = 0.25;
const MIXED: usize = 4096;
/// All of these entries together, where tiles are stored over alone.
const OVER_BOUND: f64 = 16.0;
const OVER: usize = 65_536;

/// Logs are replayed so often, each on the page as it was opened.
const TIMES: usize = 3;

/// Prints a line for each log. True if no ratio is above its bound.
pub fn measure() -> bool {
    println!(
        "{:46} {:>7} {:>11} {:>11} {:>14} {:>7}",
        "a log of", "entries", "replay", "check", "checks", "at most"
    );
    let file = file();
    let of_check = shortest(|| assert_eq!(library::check(black_box(&file)), (0, 0)));
    let of_mixed = line("stores anew, over and removals", &file, &mixed(), of_check);
    let each = of_mixed / MIXED as f64;
    println!("{each:>92.3} {MIXED_BOUND:>7.2}  for each entry");
    let of_over = line("stores over tiles that are there", &file, &over(), of_check);
    println!("{of_over:>92.3} {OVER_BOUND:>7.2}  together");
    let within = each <= MIXED_BOUND && of_over <= OVER_BOUND;
    if !within {
        println!("FAULT: a log is replayed in more checks than its bound");
    }
    within
}

/// The tiles with an even index.
fn file() -> Vec<u8> {
    let mut page = Page::of_sides([TILE[0] * 256, TILE[1] * 256], TILE);
    page.elements = vec![Element::new(SHORT, b"score")];
    for index in (0..TILES).step_by(2) {
        let contents = vec![cells(index as usize)];
        page.records.push(Record::new(Body::Tile(Tile { index, contents })));
    }
    bytes_of(&page)
}

fn cells(seed: usize) -> Vec<u8> {
    (0..TILE_BYTES).map(|at| (at ^ seed ^ (seed >> 8)) as u8).collect()
}

/// Indexes all over the page, by turns odd, even and even.
fn mixed() -> Vec<Call> {
    let tile = |at: usize| (at * 40_503 % (TILES as usize / 2) * 2) as u64;
    let call = |at: usize| match at % 3 {
        0 => Call::Store { tile: tile(at) + 1, cells: cells(at) },
        1 => Call::Store { tile: tile(at), cells: cells(at) },
        _ => Call::Remove { tile: tile(at) },
    };
    (0..MIXED).map(call).collect()
}

fn over() -> Vec<Call> {
    let tile = |at: usize| (at * 40_503 % (TILES as usize / 2) * 2) as u64;
    (0..OVER).map(|at| Call::Store { tile: tile(at), cells: cells(at + 1) }).collect()
}

/// Prints one line; how many checks the log takes. The tiles must be those of a map.
fn line(name: &str, file: &[u8], calls: &[Call], of_check: Duration) -> f64 {
    let log = log_of(calls);
    let mut opened = file.to_vec();
    opened.resize(CEILING, 0xa7);
    let mut out = [0, 0];
    let open = Call::Open { time: 1 };
    assert_eq!(library::correct_into(&mut opened, file.len() as u64, &open, &mut out), 0);
    let n = out[0];
    let mut buffer = opened.clone();
    let mut of_replay = Duration::MAX;
    for _ in 0..TIMES {
        buffer.copy_from_slice(&opened);
        let start = Instant::now();
        let number = library::replay_into(black_box(&mut buffer), n, black_box(&log), &mut out);
        of_replay = of_replay.min(start.elapsed());
        assert_eq!(
            (number, out[1]),
            (0, calls.len() as u64),
            "{name}: the library replays the log"
        );
    }
    assert!(tiles_of(&buffer[..out[0] as usize]) == expected(file, calls), "{name}: other tiles");
    let checks = of_replay.as_secs_f64() / of_check.as_secs_f64();
    println!(
        "{name:46} {:>7} {:>8.2} ms {:>8.2} ms {checks:>14.2}",
        calls.len(),
        milliseconds(of_replay),
        milliseconds(of_check),
    );
    checks
}

fn expected(file: &[u8], calls: &[Call]) -> BTreeMap<u64, Vec<Vec<u8>>> {
    let mut tiles = tiles_of(file);
    for call in calls {
        match call {
            Call::Store { tile, cells } => drop(tiles.insert(*tile, vec![cells.clone()])),
            Call::Remove { tile } => drop(tiles.remove(tile)),
            _ => {}
        }
    }
    tiles
}
