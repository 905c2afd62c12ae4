//! Every first length that matters against every stated length that matters.

use std::collections::BTreeSet;

use gvrs_tests::build::Built;
use gvrs_tests::prng::Prng;
use gvrs_tests::second::fields::integer_at;
use gvrs_tests::second::header::{FILE_CEILING, HEADER_START};

use super::begins_so::begins_so;
use crate::run::Run;

const SORT: &str = "first bytes and stated lengths";
/// Files up to this length are made and asked about whole.
const LONGEST_MADE: u64 = 300 * 1024;
/// How far around the header's end every length is taken.
const AROUND: u64 = 9;
/// Lengths at random beside the others.
const ANY: usize = 4;

/// The file's own bytes, and some behind them.
pub fn every_length(run: &mut Run, built: &Built, random: &mut Prng) {
    let file = &built.bytes;
    let bytes = [&file[..], &random.bytes(AROUND as usize)].concat();
    let near = near(built);
    let firsts = first_lengths(file.len(), &near, bytes.len(), random);
    let stated = stated_lengths(file.len() as u64, &near, random);
    for length in some(run, &stated) {
        for given in some(run, &firsts) {
            let answer = run.start(SORT, &bytes[..given], length);
            if answer.is_of_a_stage() && length <= LONGEST_MADE {
                begins_so(run, &bytes, (given, length as usize), answer, random);
            }
        }
    }
}

/// 0 to 32, and around the header's end: where it was built to end, and where its length says.
fn near(built: &Built) -> BTreeSet<u64> {
    let mut near: BTreeSet<u64> = (0..=32).collect();
    let said = integer_at(&built.bytes, HEADER_START).unwrap_or(0);
    for end in [built.starts[0] as u64, HEADER_START as u64 + u64::from(said)] {
        near.extend(end - AROUND..=end + AROUND);
    }
    near
}

/// As many as there are bytes, at most.
fn first_lengths(file: usize, near: &BTreeSet<u64>, most: usize, random: &mut Prng) -> Vec<usize> {
    let mut lengths: BTreeSet<usize> = near.iter().map(|length| *length as usize).collect();
    lengths.extend([file.saturating_sub(1), file, file + 1]);
    lengths.extend((0..ANY).map(|_| random.between(0, most)));
    lengths.into_iter().filter(|length| *length <= most).collect()
}

/// The true length and its neighbours, the ceiling, and numbers up to the greatest of 64 bits.
fn stated_lengths(file: u64, near: &BTreeSet<u64>, random: &mut Prng) -> Vec<u64> {
    let mut lengths = near.clone();
    lengths.extend([file.saturating_sub(1), file, file + 1]);
    lengths.extend([FILE_CEILING as u64 - 1, FILE_CEILING as u64, FILE_CEILING as u64 + 1]);
    lengths.extend([1 << 31, (1 << 32) - 1, 1 << 32, (1 << 32) + 24, (1 << 63) - 1, 1 << 63]);
    lengths.extend([u64::MAX - 24, u64::MAX - 15, u64::MAX - 1, u64::MAX]);
    lengths.extend((0..ANY).map(|_| random.long() >> random.below(64)));
    lengths.into_iter().collect()
}

/// All of them, or a few in a small run.
fn some<Length: Copy>(run: &Run, lengths: &[Length]) -> Vec<Length> {
    lengths.iter().step_by(if run.small { 9 } else { 1 }).copied().collect()
}
