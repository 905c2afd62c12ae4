//! Refusal 6: the chain of records.

use gvrs_tests::build::Built;
use gvrs_tests::prng::Prng;

use crate::damage::{Aim, At};

pub fn aims() -> Vec<Aim> {
    vec![
        Aim::length(6, "without a gap: 1 to 15 bytes behind the last record", bytes_left_over),
        Aim::length(6, "without a gap: zeros between two records", zeros_between),
        Aim::bytes(6, "a length is a multiple of 8", length_not_a_multiple),
        Aim::bytes(6, "a length is at least 16", length_below_16),
        Aim::bytes(6, "a length ends inside the file", length_past_the_end),
        Aim::length(6, "a length ends inside the file: cut", cut_in_a_record),
        Aim::bytes(6, "a length is not negative", length_negative),
        Aim::bytes(6, "types are 0 to 5", type_above_6),
        Aim::bytes(6, "a second header is a fault", second_header),
        Aim::bytes(6, "the first of two bad records", first_of_two),
    ]
}

fn any_record(built: &Built, random: &mut Prng) -> usize {
    random.below(built.starts.len())
}

fn set_length(built: &mut Built, number: usize, length: u64) -> Option<At> {
    let field = built.named_in("record length", number)[0];
    built.set(&field, length);
    Some(At::Record(number))
}

fn bytes_left_over(built: &mut Built, random: &mut Prng) -> Option<At> {
    let end = built.bytes.len();
    let count = random.between(1, 15);
    let junk = random.bytes(15);
    let bytes = random.pick(&[vec![0; 15], junk, vec![16, 0, 0, 0, 0]]);
    built.bytes.extend(bytes.into_iter().take(count));
    Some(At::Position(end))
}

fn zeros_between(built: &mut Built, random: &mut Prng) -> Option<At> {
    let start = built.starts[any_record(built, random)];
    let count = random.pick(&[4, 8, 16]);
    built.bytes.splice(start..start, vec![0; count]);
    Some(At::Position(start))
}

fn length_not_a_multiple(built: &mut Built, random: &mut Prng) -> Option<At> {
    let number = any_record(built, random);
    let less = random.between(1, 7) as u64;
    let length = built.length(number) as u64;
    let length = random.pick(&[length - less, length - 4, 20.min(length - 1)]);
    if length.is_multiple_of(8) {
        return None;
    }
    set_length(built, number, length)
}

fn length_below_16(built: &mut Built, random: &mut Prng) -> Option<At> {
    let number = any_record(built, random);
    set_length(built, number, random.pick(&[0, 8]))
}

fn length_past_the_end(built: &mut Built, random: &mut Prng) -> Option<At> {
    let number = any_record(built, random);
    let rest = (built.bytes.len() - built.starts[number]) as u64;
    set_length(built, number, random.pick(&[rest + 8, rest + 4096, 0x7fff_fff8]))
}

fn cut_in_a_record(built: &mut Built, random: &mut Prng) -> Option<At> {
    let number = any_record(built, random);
    let kept = random.between(1, built.length(number) - 1);
    built.bytes.truncate(built.starts[number] + kept);
    Some(At::Record(number))
}

fn length_negative(built: &mut Built, random: &mut Prng) -> Option<At> {
    let number = any_record(built, random);
    let length = built.length(number) as u64;
    let negative = random.pick(&[length | 0x8000_0000, 0x8000_0000, 0xffff_fff8, 0xffff_fff0]);
    set_length(built, number, negative)
}

fn set_type(built: &mut Built, number: usize, record_type: usize) -> Option<At> {
    let field = built.named_in("record type", number)[0];
    built.set(&field, record_type as u64);
    Some(At::Record(number))
}

fn type_above_6(built: &mut Built, random: &mut Prng) -> Option<At> {
    let number = any_record(built, random);
    let record_type = random.between(7, 255);
    set_type(built, number, random.pick(&[7, record_type, 255]))
}

fn second_header(built: &mut Built, random: &mut Prng) -> Option<At> {
    let number = any_record(built, random);
    set_type(built, number, 6)
}

fn first_of_two(built: &mut Built, random: &mut Prng) -> Option<At> {
    let (one, other) = (any_record(built, random), any_record(built, random));
    set_type(built, one, 7)?;
    set_type(built, other, 6)?;
    Some(At::Record(one.min(other)))
}
