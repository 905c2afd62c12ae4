//! An `out` of 0 to 7: what fits is written, and no more.

use gvrs_tests::build::build;
use gvrs_tests::library::explain_into;
use gvrs_tests::prng::Prng;
use gvrs_tests::random_page::random_page;
use gvrs_tests::second::explain::explain;

use super::ask::ask;
use crate::run::Run;

const MARK: u64 = 0x5a5a_5a5a_a5a5_a5a5;

pub fn section(run: &mut Run, random: &mut Prng) {
    for _ in 0..run.times(500) {
        let mut file = build(&random_page(random)).bytes;
        match random.below(3) {
            0 => file.truncate(random.below(file.len())),
            1 => {
                let at = random.below(file.len());
                file[at] ^= 1 << random.below(8);
            }
            _ => (),
        }
        ask(run, "out of 0 to 7", &file);
        for length in 0..=7 {
            out_of(run, &file, length);
        }
    }
}

fn out_of(run: &mut Run, file: &[u8], length: usize) {
    let before = file.to_vec();
    let (number, numbers) = explain(file).as_numbers();
    let mut memory = [MARK; 9];
    let answered = explain_into(file, &mut memory[1..1 + length]);
    let mut expected = [MARK; 9];
    let written = length.min(6);
    expected[1..1 + written].copy_from_slice(&numbers[..written]);
    if answered != number || memory != expected || file != before {
        let text = format!("why refused, out of {length}: {answered} of {number}, {memory:x?}");
        run.fault(&text, file);
    }
}
