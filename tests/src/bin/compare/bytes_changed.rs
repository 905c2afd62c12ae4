//! Bytes changed at random, and bytes that never were a file.

use gvrs_tests::build::{build, make_checksums_good, Built, Role};
use gvrs_tests::prng::Prng;
use gvrs_tests::random_page::random_page;

use crate::run::Run;

pub fn section(run: &mut Run, random: &mut Prng) {
    bytes_flipped(run, random);
    judged_fields_flipped(run, random);
    checksums_left(run, random);
    random_bytes(run, random);
    random_behind_a_good_front(run, random);
}

fn flip(built: &mut Built, count: usize, random: &mut Prng) {
    for _ in 0..count {
        let at = random.between(12, built.bytes.len() - 1);
        match random.below(4) {
            0 => built.bytes[at] = random.byte(),
            1 => built.bytes[at] = built.bytes[at].wrapping_add(1),
            2 => built.bytes[at] = 0,
            _ => built.bytes[at] ^= 1 << random.below(8),
        }
    }
}

fn bytes_flipped(run: &mut Run, random: &mut Prng) {
    for _ in 0..run.times(2000) {
        let good = build(&random_page(random));
        for _ in 0..20 {
            let mut built = good.clone();
            flip(&mut built, random.between(1, 3), random);
            make_checksums_good(&mut built.bytes);
            run.compare("bytes changed", &built.bytes);
        }
    }
}

/// Changes in fields that rules look at, where most changes are refused.
fn judged_fields_flipped(run: &mut Run, random: &mut Prng) {
    for _ in 0..run.times(2000) {
        let good = build(&random_page(random));
        let mut fields = good.fields.clone();
        fields.retain(|field| !matches!(field.role, Role::Unjudged | Role::Checksum));
        for _ in 0..20 {
            let mut built = good.clone();
            let field = random.pick(&fields);
            let at = field.at + random.below(field.width);
            built.bytes[at] ^= 1 << random.below(8);
            make_checksums_good(&mut built.bytes);
            run.compare("judged fields changed", &built.bytes);
        }
    }
}

fn checksums_left(run: &mut Run, random: &mut Prng) {
    for _ in 0..run.times(5000) {
        let mut built = build(&random_page(random));
        flip(&mut built, random.between(1, 3), random);
        run.compare("bytes changed, checksums left", &built.bytes);
    }
}

fn random_bytes(run: &mut Run, random: &mut Prng) {
    for _ in 0..run.times(2000) {
        let length = random.below(2000);
        let mut file = random.bytes(length);
        if random.one_in(2) && length >= 16 {
            file[..14].copy_from_slice(b"gvrs raster\0\x01\x04");
        }
        if random.one_in(2) && length >= 24 {
            file[16..21].copy_from_slice(&[
                (length - 16) as u8 & 0xf8,
                (length >> 8) as u8,
                0,
                0,
                6,
            ]);
        }
        run.compare("random bytes", &file);
    }
}

/// A good header, then records with good lengths and random types and content.
fn random_behind_a_good_front(run: &mut Run, random: &mut Prng) {
    for _ in 0..run.times(10000) {
        let built = build(&random_page(random));
        let mut file = built.bytes[..built.starts[0]].to_vec();
        for _ in 0..random.below(5) {
            let length = 8 * random.between(2, 10);
            let mut record = random.bytes(length);
            record[..4].copy_from_slice(&(length as u32).to_le_bytes());
            record[4] = random.below(6) as u8;
            if random.one_in(2) {
                record[8..].fill(0);
            }
            file.extend(record);
        }
        make_checksums_good(&mut file);
        run.compare("random records", &file);
    }
}
