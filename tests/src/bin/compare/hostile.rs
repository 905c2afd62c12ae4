//! Extreme values in every count, length, side and reference.

use gvrs_tests::build::{build, make_checksums_good, Built, Field, Role};
use gvrs_tests::prng::Prng;
use gvrs_tests::random_page::random_page;

use crate::run::Run;

pub fn section(run: &mut Run, random: &mut Prng) {
    for _ in 0..run.times(200) {
        let built = build(&random_page(random));
        counts(run, &built, random);
        references(run, &built, random);
        judged_bytes(run, &built, random);
    }
}

fn with_value(good: &Built, field: &Field, value: u64) -> Vec<u8> {
    let mut built = good.clone();
    built.set(field, value);
    make_checksums_good(&mut built.bytes);
    built.bytes
}

/// Three fields of each name, so that files with many entries don't outweigh the others.
fn some_of_each_name(mut fields: Vec<Field>, random: &mut Prng) -> Vec<Field> {
    random.shuffle(&mut fields);
    let mut some: Vec<Field> = Vec::new();
    for field in fields {
        if some.iter().filter(|other| other.name == field.name).count() < 3 {
            some.push(field);
        }
    }
    some
}

fn counts(run: &mut Run, good: &Built, random: &mut Prng) {
    for field in some_of_each_name(good.of_role(Role::Count), random) {
        let own = good.value(&field);
        let mut values = vec![0, 1, 8, own.wrapping_sub(1), own + 1, own + 8, 0x7fff, 0xffff];
        if field.width == 4 {
            values.extend([0x7fff_ffff, 0x7fff_fff8, 0x8000_0000, 0xffff_fff8, 0xffff_ffff]);
            values.extend([own | 0x8000_0000, 0x1_0000, 0x1000_0000, 0x4000_0000]);
        }
        for value in values {
            run.compare("hostile counts", &with_value(good, &field, value));
        }
    }
}

fn references(run: &mut Run, good: &Built, random: &mut Prng) {
    let end = good.bytes.len() as u64;
    for field in some_of_each_name(good.of_role(Role::Reference), random) {
        let own = good.value(&field);
        let mut values = vec![0, 1, 7, 8, 15, 16, 24, own ^ 1, own ^ 4, own ^ 8, own / 8, own * 8];
        values.extend([own + 8, own.wrapping_sub(8), end - 8, end - 4, end, end + 8]);
        values.extend([u64::MAX, u64::MAX - 7, u64::MAX - 8, u64::MAX - 15, 1 << 63, 1 << 32]);
        values.extend([own | 1 << 32, own | 1 << 63, own | 1 << 29, 0x7fff_ffff, 0xffff_ffff]);
        for value in values {
            run.compare("hostile references", &with_value(good, &field, value));
        }
    }
}

/// Every value of every type byte and flag.
fn judged_bytes(run: &mut Run, good: &Built, random: &mut Prng) {
    let mut fields = good.of_role(Role::Judged);
    fields.retain(|field| field.width == 1);
    for field in &some_of_each_name(fields, random) {
        for value in (0..=12).chain([0x7f, 0x80, 0xff]) {
            run.compare("hostile types and flags", &with_value(good, field, value));
        }
    }
}
