//! What docs/LAYOUT.md fixes of a rule whatever the file is, beside both implementations: a number
//! that is found stands in the file where it is said to stand, and what is wanted is one number.

use gvrs_tests::second::explain::Fault;

const NOT_NEGATIVE: u64 = 2_147_483_647;

/// Whether what is said of a file is so.
pub fn holds(file: &[u8], fault: &Fault) -> bool {
    let Fault { rule, number, position, found, wanted } = *fault;
    let found_there = stands(rule, position).is_none_or(|at| value(file, at) == found);
    found_there && one_number(rule, number).is_none_or(|fixed| fixed == wanted)
}

/// A position, and how many bytes the number has there.
type At = (u64, usize);

/// Where the number that is found stands; of a text its length, before its first byte.
fn stands(rule: u64, position: u64) -> Option<At> {
    match rule {
        3 | 4 | 8 | 11..=13 | 17 | 37 | 47 | 51 | 52 => Some((position, 1)),
        18 | 20..=22 | 26 | 46 | 48 => Some((position - 2, 2)),
        5 | 6 | 9 | 10 | 14 | 15 | 23 | 28 | 30 | 33..=35 | 38 | 39 => Some((position, 4)),
        43..=45 | 53 | 54 | 62 | 70 | 71 => Some((position, 4)),
        32 | 49 | 60 | 68 => Some((position, 8)),
        _ => None,
    }
}

/// A number that does not lie whole in the file is 0.
fn value(file: &[u8], (at, width): At) -> u64 {
    let bytes = file.get(at as usize..).and_then(|rest| rest.get(..width)).unwrap_or(&[]);
    bytes.iter().rev().fold(0, |number, byte| number << 8 | u64::from(*byte))
}

/// What is wanted, where that is one number.
fn one_number(rule: u64, number: u64) -> Option<u64> {
    match rule {
        2 | 19..=22 | 26 | 32 | 48 | 49 | 51 | 59 | 60 | 67 | 68 => Some(0),
        3 | 9 | 11 | 14 | 43 | 52 | 66 | 70 | 75 => Some(1),
        12 | 13 => Some(2),
        17 => Some(3),
        4 => Some(4),
        37 => Some(5),
        8 => Some(6),
        5 | 35 => Some(8),
        47 => Some(9),
        1 | 30 | 33 => Some(16),
        18 | 46 => Some(32),
        28 => Some(if number < 2 { 65_536 } else { 4_096 }),
        29 => Some(65_536),
        31 => Some(1_048_576),
        27 => Some(16_777_216),
        6 | 10 | 15 | 23 | 34 | 39 | 45 | 53 | 54 | 62 | 71 => Some(NOT_NEGATIVE),
        _ => None,
    }
}
