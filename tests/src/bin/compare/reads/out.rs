//! How much of an answer goes into `out`: what fits, and no more.

use gvrs_tests::build::build;
use gvrs_tests::library::{cell_into, content_into};
use gvrs_tests::prng::Prng;
use gvrs_tests::random_page::random_page;
use gvrs_tests::second::cells::{Opened, Spot};

use super::ask::{routes, Asked};
use super::described::Described;
use crate::run::Run;

const SORT: &str = "out of 0 to 7";
const LENGTHS: [&str; 8] = [
    "out of 0", "out of 1", "out of 2", "out of 3", "out of 4", "out of 5", "out of 6", "out of 7",
];
/// With a number around it on either side.
const MEMORY: usize = LENGTHS.len() + 1;
const ANSWERS: [&str; 3] = ["stored", "fill", "refused"];
const ADDRESSES: &str = "a cell and a content at eight addresses in memory";

const MARK: u64 = 0x5a5a_5a5a_a5a5_a5a5;

pub fn section(run: &mut Run, random: &mut Prng) {
    for answer in ANSWERS {
        for length in LENGTHS {
            run.reads.want(&format!("{length}: cell {answer}"));
            run.reads.want(&format!("{length}: content {answer}"));
        }
    }
    run.reads.want(ADDRESSES);
    for _ in 0..run.times(1000) {
        let page = random_page(random);
        let built = build(&page);
        let described = Described::new(&page, &built);
        let inside = described.at_random(random);
        let spot = described.spot(inside).expect("in the grid");
        let tile = described.index(inside.tile) as u64;
        let mut file = built.bytes.clone();
        if random.one_in(4) {
            file.truncate(random.below(file.len()));
        }
        for length in 0..LENGTHS.len() {
            of_length(run, &file, spot, tile, length, random);
        }
        at_any_address(run, &file, spot, tile, random);
    }
}

fn answer_name(number: u32) -> &'static str {
    match number {
        32 => ANSWERS[0],
        33 => ANSWERS[1],
        _ => ANSWERS[2],
    }
}

/// The number does not depend on `out`; the answer's first numbers are in it, the others stay; so
/// does the memory around it, and the file.
fn of_length(run: &mut Run, file: &[u8], spot: Spot, tile: u64, length: usize, random: &mut Prng) {
    let before = file.to_vec();
    let asked = Asked::new(file);
    for route in routes(random) {
        let (number, numbers) = asked.meaning(spot, route).as_numbers();
        let mut memory = [MARK; MEMORY];
        let answered = cell_into(file, spot, route, &mut memory[1..1 + length]);
        let good = answered == number && memory == expected(&numbers, length) && file == before;
        let what = format!("{}: cell {}", LENGTHS[length], answer_name(number));
        judge(run, file, good, &what, answered, &memory);
    }
    let (number, numbers) = Opened::checked(file).content(tile, spot.element).as_numbers();
    let mut memory = [MARK; MEMORY];
    let answered = content_into(file, tile, spot.element, &mut memory[1..1 + length]);
    let good = answered == number && memory == expected(&numbers, length) && file == before;
    let what = format!("{}: content {}", LENGTHS[length], answer_name(number));
    judge(run, file, good, &what, answered, &memory);
}

fn expected(numbers: &[u64], length: usize) -> [u64; MEMORY] {
    let mut memory = [MARK; MEMORY];
    let fitting = numbers.len().min(length);
    memory[1..1 + fitting].copy_from_slice(&numbers[..fitting]);
    memory
}

fn judge(run: &mut Run, file: &[u8], good: bool, what: &str, answered: u32, memory: &[u64]) {
    run.reads.asked(SORT);
    if good {
        run.reads.reached(what);
    } else {
        run.fault(&format!("{what}: answered {answered}, {memory:x?}"), file);
    }
}

/// The answer does not depend on where the file lies in memory, nor on what surrounds it.
fn at_any_address(run: &mut Run, file: &[u8], spot: Spot, tile: u64, random: &mut Prng) {
    let asked = Asked::new(file);
    let content = Opened::checked(file).content(tile, spot.element).as_numbers();
    let mut same = true;
    for before in 0..8 {
        let mut memory = vec![0xff; before];
        memory.extend(file);
        memory.extend([0xff; 16]);
        let moved = &memory[before..before + file.len()];
        let route = routes(random)[before % 4];
        let answer = asked.meaning(spot, route).as_numbers();
        same &= gvrs_tests::library::cell(moved, spot, route) == answer;
        same &= gvrs_tests::library::content(moved, tile, spot.element) == content;
    }
    run.reads.asked(SORT);
    if same {
        run.reads.reached(ADDRESSES);
    } else {
        run.fault("another answer at another address", file);
    }
}
