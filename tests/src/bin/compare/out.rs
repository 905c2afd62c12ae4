//! How much of an answer goes into `out`: what fits, and no more.

use gvrs_tests::build::build;
use gvrs_tests::library::{self, check_into, check_rest_into};
use gvrs_tests::prng::Prng;
use gvrs_tests::random_page::random_page;
use gvrs_tests::second::check::check;

use crate::run::Run;

const MARK: u64 = 0x5a5a_5a5a_a5a5_a5a5;

pub fn section(run: &mut Run, random: &mut Prng) {
    for _ in 0..run.times(1000) {
        let mut file = build(&random_page(random)).bytes;
        match random.below(4) {
            0 => file.truncate(random.below(file.len())),
            1 => drop(file.pop()),
            2 => {
                let at = random.below(file.len());
                file[at] ^= 1 << random.below(8);
            }
            _ => (),
        }
        run.compare("out of 0, 1 and 3", &file);
        for length in [0, 1, 3] {
            out_of(run, &file, length, check_into);
            out_of(run, &file, length, check_rest_into);
        }
        at_any_address(run, &file);
    }
}

/// Of the check or of its second half: the number does not depend on `out`; its first holds the
/// place, the others stay; so does the memory around it.
fn out_of(run: &mut Run, file: &[u8], length: usize, asked: fn(&[u8], &mut [u64]) -> u32) {
    let before = file.to_vec();
    let (number, place) = check(file);
    let mut memory = [MARK; 6];
    let answered = asked(file, &mut memory[1..1 + length]);
    let mut expected = [MARK; 6];
    if length > 0 {
        expected[1] = place;
    }
    if answered != number || memory != expected || file != before {
        let text = format!("out of {length}: answered {answered}, expected {number}, {memory:x?}");
        run.fault(&text, file);
    }
}

/// The answer does not depend on where the file lies in memory, nor on what surrounds it.
fn at_any_address(run: &mut Run, file: &[u8]) {
    let answer = check(file);
    for before in 0..8 {
        let mut memory = vec![0xff; before];
        memory.extend(file);
        memory.extend([0xff; 16]);
        let moved = &memory[before..before + file.len()];
        if library::check(moved) != answer || library::check_rest(moved) != answer {
            run.fault(&format!("another answer {before} bytes further on"), file);
        }
    }
}
