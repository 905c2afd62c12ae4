//! Refusals 1, 2 and 5.

use gvrs_tests::build::Built;
use gvrs_tests::prng::Prng;

use crate::damage::{Aim, At};

pub fn aims() -> Vec<Aim> {
    vec![
        Aim::length(1, "fewer than 16 bytes", fewer_than_16_bytes),
        Aim::bytes(1, "the first 12 differ", first_12_differ),
        Aim::bytes(1, "the shorter word of G section 3.4", shorter_word),
        Aim::bytes(2, "byte 12 is not 1", byte_12_not_1),
        Aim::bytes(2, "byte 13 is not 4", byte_13_not_4),
        Aim::bytes(2, "version 1.3, 2.4 or 4.1", near_versions),
        Aim::bytes(5, "time opened for writing is not zero", opened),
    ]
}

fn fewer_than_16_bytes(built: &mut Built, random: &mut Prng) -> Option<At> {
    built.bytes.truncate(random.below(16));
    Some(At::Zero)
}

fn first_12_differ(built: &mut Built, random: &mut Prng) -> Option<At> {
    let at = random.below(12);
    built.bytes[at] ^= random.between(1, 255) as u8;
    Some(At::Zero)
}

fn shorter_word(built: &mut Built, _: &mut Prng) -> Option<At> {
    built.bytes[..12].copy_from_slice(b"gvr raster\0\0");
    Some(At::Zero)
}

fn byte_12_not_1(built: &mut Built, random: &mut Prng) -> Option<At> {
    built.bytes[12] ^= random.between(1, 255) as u8;
    Some(At::Zero)
}

fn byte_13_not_4(built: &mut Built, random: &mut Prng) -> Option<At> {
    built.bytes[13] ^= random.between(1, 255) as u8;
    Some(At::Zero)
}

fn near_versions(built: &mut Built, random: &mut Prng) -> Option<At> {
    let version = random.pick(&[[1, 3], [2, 4], [4, 1]]);
    built.bytes[12..14].copy_from_slice(&version);
    Some(At::Zero)
}

/// Any one bit of the eight bytes, often the first or the last.
fn opened(built: &mut Built, random: &mut Prng) -> Option<At> {
    let field = built.only("time opened");
    let any = random.below(64);
    built.set(&field, 1 << random.pick(&[0, any, 63]));
    Some(At::Zero)
}
