//! Refusal 7: checksums. These damages come behind the repair of checksums.

use gvrs_tests::build::{make_checksum_good, Built, Field, Role};
use gvrs_tests::prng::Prng;
use gvrs_tests::second::chain;
use gvrs_tests::second::crc32c::crc32c;

use crate::damage::{Aim, At};

pub fn aims() -> Vec<Aim> {
    let mut aims = on_aims();
    aims.extend(sum_aims());
    aims.extend(off_aims());
    aims.push(Aim::checksums("the first of two", first_of_two));
    aims
}

/// One bit of the last four bytes, for each type of record.
fn on_aims() -> Vec<Aim> {
    vec![
        Aim::checksums("on: the header's last four bytes", |built, random| {
            if_on(built)?;
            flip_checksum_of(built, None, random)
        }),
        Aim::checksums("on: a free record's last four bytes", |built, random| {
            flip_checksum_of_type(built, chain::FREE, random)
        }),
        Aim::checksums("on: a metadata record's last four bytes", |built, random| {
            flip_checksum_of_type(built, chain::METADATA, random)
        }),
        Aim::checksums("on: a tile record's last four bytes", |built, random| {
            flip_checksum_of_type(built, chain::TILE, random)
        }),
        Aim::checksums("on: a file-space directory's last four bytes", |built, random| {
            flip_checksum_of_type(built, chain::FILE_SPACE_DIRECTORY, random)
        }),
        Aim::checksums("on: a metadata directory's last four bytes", |built, random| {
            flip_checksum_of_type(built, chain::METADATA_DIRECTORY, random)
        }),
        Aim::checksums("on: a tile directory's last four bytes", |built, random| {
            flip_checksum_of_type(built, chain::TILE_DIRECTORY, random)
        }),
    ]
}

/// What is summed, and how.
fn sum_aims() -> Vec<Aim> {
    vec![
        Aim::checksums("on: of all earlier bytes of the record", unjudged_byte_changed),
        Aim::checksums("on: zero is no checksum", checksum_zero),
        Aim::checksums("on: final exclusive-or", checksum_inverted),
        Aim::checksums("on: little-endian", checksum_big_endian),
        Aim::checksums("on: a free record's is of its first eight bytes only", free_over_content),
        Aim::checksums("on: the header's is of its own bytes only", header_from_byte_0),
    ]
}

fn off_aims() -> Vec<Aim> {
    vec![
        Aim::checksums("off: they are zero, the header's", |built, random| {
            if_off(built)?;
            flip_checksum_of(built, None, random)
        }),
        Aim::checksums("off: they are zero, a free record's", |built, random| {
            off_but_not_zero(built, chain::FREE, random)
        }),
        Aim::checksums("off: they are zero, any record's", |built, random| {
            off_but_not_zero(built, random.below(6) as u8, random)
        }),
        Aim::checksums("off, with the checksums of on", off_with_checksums_of_on),
    ]
}

fn is_on(built: &Built) -> bool {
    built.bytes[128] == 1
}

fn if_on(built: &Built) -> Option<()> {
    is_on(built).then_some(())
}

fn if_off(built: &Built) -> Option<()> {
    (!is_on(built)).then_some(())
}

fn at_owner(owner: Option<usize>) -> At {
    owner.map_or(At::Header, At::Record)
}

fn checksum_of(built: &Built, owner: Option<usize>) -> Field {
    let checksums = built.of_role(Role::Checksum);
    let wanted = checksums.iter().find(|field| field.owner == owner);
    *wanted.expect("every record has a checksum")
}

/// One bit of the four bytes.
fn flip_checksum_of(built: &mut Built, owner: Option<usize>, random: &mut Prng) -> Option<At> {
    let field = checksum_of(built, owner);
    let value = built.value(&field) ^ (1 << random.below(32));
    built.set(&field, value);
    Some(at_owner(owner))
}

fn record_of_type(built: &Built, record_type: u8, random: &mut Prng) -> Option<usize> {
    let wanted = |number: &usize| built.bytes[built.starts[*number] + 4] == record_type;
    let records: Vec<usize> = (0..built.starts.len()).filter(wanted).collect();
    random.pick_any(&records)
}

fn flip_checksum_of_type(built: &mut Built, record_type: u8, random: &mut Prng) -> Option<At> {
    if_on(built)?;
    let record = record_of_type(built, record_type, random)?;
    flip_checksum_of(built, Some(record), random)
}

/// A byte that no other rule looks at, in any record but a free one's content.
fn unjudged_byte_changed(built: &mut Built, random: &mut Prng) -> Option<At> {
    if_on(built)?;
    let summed = |field: &Field| field.name != "free content" && field.at >= 16;
    let mut fields = built.of_role(Role::Unjudged);
    fields.retain(summed);
    let field = random.pick(&fields);
    let at = field.at + random.below(field.width);
    built.bytes[at] ^= 1 << random.below(8);
    Some(at_owner(field.owner))
}

fn any_owner(built: &Built, random: &mut Prng) -> Option<usize> {
    let number = random.below(built.starts.len() + 1);
    (number < built.starts.len()).then_some(number)
}

fn checksum_zero(built: &mut Built, random: &mut Prng) -> Option<At> {
    if_on(built)?;
    let owner = any_owner(built, random);
    let field = checksum_of(built, owner);
    built.set(&field, 0);
    Some(at_owner(owner))
}

fn checksum_inverted(built: &mut Built, random: &mut Prng) -> Option<At> {
    if_on(built)?;
    let owner = any_owner(built, random);
    let field = checksum_of(built, owner);
    built.set(&field, !built.value(&field));
    Some(at_owner(owner))
}

fn checksum_big_endian(built: &mut Built, random: &mut Prng) -> Option<At> {
    if_on(built)?;
    let owner = any_owner(built, random);
    let field = checksum_of(built, owner);
    let value = built.value(&field) as u32;
    built.set(&field, u64::from(value.swap_bytes()));
    (value.swap_bytes() != value).then(|| at_owner(owner))
}

fn free_over_content(built: &mut Built, random: &mut Prng) -> Option<At> {
    if_on(built)?;
    let record = record_of_type(built, chain::FREE, random)?;
    let field = checksum_of(built, Some(record));
    let checksum = crc32c(&built.bytes[built.starts[record]..field.at]);
    built.set(&field, u64::from(checksum));
    Some(At::Record(record))
}

fn header_from_byte_0(built: &mut Built, _: &mut Prng) -> Option<At> {
    if_on(built)?;
    let field = checksum_of(built, None);
    let checksum = crc32c(&built.bytes[..field.at]);
    built.set(&field, u64::from(checksum));
    Some(At::Header)
}

fn off_but_not_zero(built: &mut Built, record_type: u8, random: &mut Prng) -> Option<At> {
    if_off(built)?;
    let record = record_of_type(built, record_type, random)?;
    flip_checksum_of(built, Some(record), random)
}

/// Every record's checksum as if on, but the flag is off. The header's is the first.
fn off_with_checksums_of_on(built: &mut Built, _: &mut Prng) -> Option<At> {
    if_off(built)?;
    let mut start = 16;
    for end in built.starts.clone().into_iter().chain([built.bytes.len()]) {
        make_checksum_good(&mut built.bytes[start..end], true);
        start = end;
    }
    Some(At::Header)
}

fn first_of_two(built: &mut Built, random: &mut Prng) -> Option<At> {
    let (one, other) = (any_owner(built, random), any_owner(built, random));
    if one == other {
        return None;
    }
    flip_checksum_of(built, one, random)?;
    flip_checksum_of(built, other, random)?;
    let first = if one.is_none() || other.is_none() { None } else { one.min(other) };
    Some(at_owner(first))
}
