//! Refusal 9: the metadata directory.

use gvrs_tests::build::{Built, Field};
use gvrs_tests::page::{Body, Metadata, Page};
use gvrs_tests::prng::Prng;
use gvrs_tests::random_page::put_anywhere;
use gvrs_tests::second::chain::{METADATA, METADATA_DIRECTORY};

use super::changes;
use crate::damage::{Aim, At};

const REFERENCE: &str = "metadata reference";

pub fn aims() -> Vec<Aim> {
    let mut aims = reference_aims();
    aims.extend(count_aims());
    aims.extend(listing_aims());
    aims.extend(entry_aims());
    aims
}

// The reference to the directory.

fn reference_aims() -> Vec<Aim> {
    vec![
        Aim::bytes(9, "the metadata reference is the content", |built, random| {
            let field = built.only(REFERENCE);
            changes::wrong_content(built, &field, random)
        }),
        Aim::bytes(9, "the metadata reference is to a type 4", |built, random| {
            changes::content_of_another(built, REFERENCE, random)
        }),
        Aim::bytes(9, "metadata reference zero, but a record of type 4", |built, _| {
            changes::zero(built, REFERENCE)
        }),
        Aim::description(9, "no metadata directory, but a metadata record", |page, _| {
            changes::no_directory(page, METADATA_DIRECTORY, METADATA)
        }),
        Aim::bytes(9, "metadata reference not zero, no record of type 4", |built, random| {
            changes::reference_to_nothing(built, REFERENCE, random)
        }),
        Aim::description(9, "no other record of type 4", |page, random| {
            page.of_type(METADATA_DIRECTORY).first()?;
            put_anywhere(page, Body::MetadataDirectory(Vec::new()), random);
            Some(At::Header)
        }),
    ]
}

// The count.

fn count_aims() -> Vec<Aim> {
    vec![
        Aim::bytes(9, "the metadata count is not negative", |built, random| {
            changes::negative(built, "metadata count", random)?;
            Some(At::Header)
        }),
        Aim::bytes(9, "the metadata entries fit", count_too_large),
        Aim::bytes(9, "0 to 7 padding bytes: a metadata entry less", count_one_less),
        Aim::description(9, "0 to 7 padding bytes in the metadata directory", |page, random| {
            changes::longer_directory(page, METADATA_DIRECTORY, random)
        }),
        Aim::bytes(9, "the last metadata entry's name fits", last_name_too_long),
    ]
}

fn count_too_large(built: &mut Built, random: &mut Prng) -> Option<At> {
    let field = random.pick_any(&built.named("metadata count"))?;
    let count = built.value(&field) + 1;
    built.set(&field, random.pick(&[count, 0x0100_0000, 0x7fff_ffff]));
    Some(At::Header)
}

fn count_one_less(built: &mut Built, random: &mut Prng) -> Option<At> {
    let field = random.pick_any(&built.named("metadata count"))?;
    let count = built.value(&field).checked_sub(1)?;
    built.set(&field, count);
    Some(At::Header)
}

fn last_name_too_long(built: &mut Built, random: &mut Prng) -> Option<At> {
    let field = *built.named("listed name length").last()?;
    let left = built.left_behind(field.at + 2, field.owner?) as u64;
    built.set(&field, random.pick(&[left - 4, left, left + 1, 0xffff]));
    Some(At::Header)
}

// What is listed.

fn listing_aims() -> Vec<Aim> {
    vec![
        Aim::description(9, "every metadata record is listed", |page, random| {
            changes::left_out(page, METADATA_DIRECTORY, random)
        }),
        Aim::description(9, "every metadata record is listed once", |page, random| {
            changes::listed_twice(page, METADATA_DIRECTORY, random)
        }),
        Aim::description(
            9,
            "a metadata record listed twice in place of another",
            |page, random| changes::in_place_of_another(page, METADATA_DIRECTORY, random),
        ),
        Aim::description(9, "the list of metadata has no other entry", |page, random| {
            changes::another_record(page, METADATA_DIRECTORY, METADATA, random)
        }),
        Aim::description(9, "no two have the same pair of name and ID", same_key),
    ]
}

/// A second record with a key that is taken, with other content, listed as it should be.
fn same_key(page: &mut Page, random: &mut Prng) -> Option<At> {
    let number = random.pick_any(&page.of_type(METADATA))?;
    let Body::Metadata(first) = &page.records[number].body else {
        return None;
    };
    let mut second = Metadata::new(&first.name, first.id);
    second.data_type = random.below(10) as u8;
    let at = random.between(0, page.records.len());
    page.insert(at, Body::Metadata(second));
    let listed = changes::list(page, METADATA_DIRECTORY)?;
    listed.insert(random.between(0, listed.len()), at);
    Some(At::Header)
}

// What an entry repeats.

fn entry_aims() -> Vec<Aim> {
    vec![
        Aim::bytes(9, "listed by content", |built, random| {
            let field = random.pick_any(&built.named("metadata position"))?;
            changes::wrong_content(built, &field, random)
        }),
        Aim::bytes(9, "listed by content: not another's", |built, random| {
            changes::swapped(built, "metadata position", random)
        }),
        Aim::bytes(9, "listed by name", name_changed),
        Aim::bytes(9, "listed by name, with case", name_case_changed),
        Aim::bytes(9, "listed by name: the same length", name_length_changed),
        Aim::bytes(9, "listed by name: the entry's alone ends in an underscore", underscore_last),
        Aim::bytes(9, "listed by record ID", |built, random| {
            flip_a_bit(built, "listed ID", random)
        }),
        Aim::bytes(9, "listed by type code", |built, random| {
            flip_a_bit(built, "listed type", random)
        }),
    ]
}

fn a_name(built: &Built, random: &mut Prng) -> Option<Field> {
    random.pick_any(&built.named("listed name"))
}

/// One byte of the name, any of them, to another that a name may have.
fn name_changed(built: &mut Built, random: &mut Prng) -> Option<At> {
    let field = a_name(built, random)?;
    let at = field.at + random.below(field.width);
    let own = built.bytes[at];
    built.bytes[at] = random.pick(b"QWqw");
    (built.bytes[at] != own).then_some(At::Header)
}

fn name_case_changed(built: &mut Built, random: &mut Prng) -> Option<At> {
    let field = a_name(built, random)?;
    let at = field.at + random.below(field.width);
    if !built.bytes[at].is_ascii_alphabetic() {
        return None;
    }
    built.bytes[at] ^= 0x20;
    Some(At::Header)
}

/// The last entry's name becomes one character shorter, and the padding takes the byte.
fn name_length_changed(built: &mut Built, _: &mut Prng) -> Option<At> {
    let field = *built.named("listed name length").last()?;
    let length = built.value(&field).checked_sub(1).filter(|length| *length > 0)?;
    let behind = field.at + 2 + length as usize;
    built.set(&field, length);
    built.bytes.copy_within(behind + 1..behind + 6, behind);
    (built.left_behind(behind + 5, field.owner?) <= 7).then_some(At::Header)
}

fn underscore_last(built: &mut Built, random: &mut Prng) -> Option<At> {
    let field = a_name(built, random)?;
    built.bytes[field.at + field.width - 1] = b'_';
    Some(At::Header)
}

fn flip_a_bit(built: &mut Built, name: &str, random: &mut Prng) -> Option<At> {
    let field = random.pick_any(&built.named(name))?;
    let value = built.value(&field) ^ (1 << random.below(8 * field.width));
    built.set(&field, value);
    Some(At::Header)
}
