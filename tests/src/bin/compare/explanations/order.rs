//! The order of the rules, as docs/LAYOUT.md has it: of two that are broken the earlier is named.

use gvrs_tests::build::Built;

/// Which rule is named, with the number of what breaks it and the position of its field.
pub type Named = (u64, u64, u64);

/// Less than that of each rule that comes behind it. Rules that are asked of one thing after the
/// other begin with the first of them and the thing.
pub fn order(named: Named, built: &Built) -> [u64; 4] {
    let (rule, number, position) = named;
    match rule {
        9 | 10 => [9, number, rule, 0],
        17..=22 => [17, number, rule, 0],
        33..=37 => [33, number, rule, 0],
        39..=48 => {
            let [of_fields, of_element] = in_record(rule, number);
            [39, record_at(position, built), of_fields, of_element]
        }
        53..=55 => [53, number, rule, 0],
        58 => [58, position, 0, 0],
        _ => [rule, number, 0, 0],
    }
}

/// Of a tile record 39 to 42, then 43 and 44 of each element; of a metadata record 45, 41, 42 and 46
/// to 48.
fn in_record(rule: u64, number: u64) -> [u64; 2] {
    match rule {
        43 | 44 => [43, 100 * number + rule],
        45 => [0, 0],
        _ => [rule, 0],
    }
}

/// The start of the record that has a position.
fn record_at(position: u64, built: &Built) -> u64 {
    let before = |start: &&usize| **start as u64 <= position;
    built.starts.iter().rfind(before).map_or(16, |start| *start as u64)
}

/// Whether the later of two rules keeps the earlier from being broken: tiles of the greatest sides
/// are few, and behind more elements than 16 nothing of the header is read.
pub fn undone(earlier: u64, later: u64) -> bool {
    matches!((earlier, later), (29, 31) | (23..=26, 30))
}
