//! Refusal 9: the file-space directory.

use gvrs_tests::build::Built;
use gvrs_tests::page::{Body, Page};
use gvrs_tests::prng::Prng;
use gvrs_tests::random_page::put_anywhere;
use gvrs_tests::second::chain::{FILE_SPACE_DIRECTORY, FREE};

use super::changes;
use crate::damage::{Aim, At};

const REFERENCE: &str = "file-space reference";

pub fn aims() -> Vec<Aim> {
    let mut aims = reference_aims();
    aims.extend(count_aims());
    aims.extend(listing_aims());
    aims.extend(entry_aims());
    aims
}

// The reference to the directory.

fn reference_aims() -> Vec<Aim> {
    vec![
        Aim::bytes(9, "the file-space reference is the content", |built, random| {
            let field = built.only(REFERENCE);
            changes::wrong_content(built, &field, random)
        }),
        Aim::bytes(9, "the file-space reference is to a type 3", |built, random| {
            changes::content_of_another(built, REFERENCE, random)
        }),
        Aim::bytes(9, "file-space reference zero, but a record of type 3", |built, _| {
            changes::zero(built, REFERENCE)
        }),
        Aim::description(9, "no file-space directory, but a free record", |page, _| {
            changes::no_directory(page, FILE_SPACE_DIRECTORY, FREE)
        }),
        Aim::bytes(9, "file-space reference not zero, no record of type 3", |built, random| {
            changes::reference_to_nothing(built, REFERENCE, random)
        }),
        Aim::description(9, "no other record of type 3", second_directory),
    ]
}

/// A copy of the directory, with the same list.
fn second_directory(page: &mut Page, random: &mut Prng) -> Option<At> {
    let number = *page.of_type(FILE_SPACE_DIRECTORY).first()?;
    let at = random.between(0, page.records.len());
    page.insert(at, Body::FileSpaceDirectory(Vec::new()));
    let number = if at <= number { number + 1 } else { number };
    page.records[at].body = page.records[number].body.clone();
    Some(At::Header)
}

// The count.

fn count_aims() -> Vec<Aim> {
    vec![
        Aim::description(9, "a file-space directory has at least one", empty_directory),
        Aim::bytes(9, "the free count is not negative", |built, random| {
            changes::negative(built, "free count", random)?;
            Some(At::Header)
        }),
        Aim::bytes(9, "the free entries fit", count_too_large),
        Aim::bytes(9, "0 to 7 padding bytes: a free entry less", count_one_less),
        Aim::description(9, "0 to 7 padding bytes in the file-space directory", |page, random| {
            changes::longer_directory(page, FILE_SPACE_DIRECTORY, random)
        }),
    ]
}

/// No free record, and a directory that lists none.
fn empty_directory(page: &mut Page, random: &mut Prng) -> Option<At> {
    while let Some(number) = page.of_type(FREE).first() {
        page.remove(*number);
    }
    if page.of_type(FILE_SPACE_DIRECTORY).is_empty() {
        put_anywhere(page, Body::FileSpaceDirectory(Vec::new()), random);
    }
    Some(At::Header)
}

fn count_too_large(built: &mut Built, random: &mut Prng) -> Option<At> {
    let field = random.pick_any(&built.named("free count"))?;
    let count = built.value(&field) + 1;
    // 12 times 0x1555_5556 is 8 above 2^32, 12 times 0x4000_0001 is 12 above 3 times 2^32.
    built.set(&field, random.pick(&[count, 0x1555_5556, 0x4000_0001, 0x7fff_ffff]));
    Some(At::Header)
}

fn count_one_less(built: &mut Built, random: &mut Prng) -> Option<At> {
    let field = random.pick_any(&built.named("free count"))?;
    let count = built.value(&field).checked_sub(1)?;
    built.set(&field, count);
    Some(At::Header)
}

// What is listed.

fn listing_aims() -> Vec<Aim> {
    vec![
        Aim::description(9, "every free record is listed", |page, random| {
            changes::left_out(page, FILE_SPACE_DIRECTORY, random)
        }),
        Aim::description(9, "every free record is listed once", |page, random| {
            changes::listed_twice(page, FILE_SPACE_DIRECTORY, random)
        }),
        Aim::description(9, "a free record listed twice in place of another", |page, random| {
            changes::in_place_of_another(page, FILE_SPACE_DIRECTORY, random)
        }),
        Aim::description(9, "the list of free records has no other entry", |page, random| {
            changes::another_record(page, FILE_SPACE_DIRECTORY, FREE, random)
        }),
    ]
}

// What an entry repeats.

fn entry_aims() -> Vec<Aim> {
    vec![
        Aim::bytes(9, "a free record is listed by its start", wrong_start),
        Aim::bytes(9, "a free record is listed by its size", wrong_size),
        Aim::bytes(9, "two free records with their sizes swapped", |built, random| {
            changes::swapped(built, "free size", random)
        }),
    ]
}

/// Content in place of start, or another position.
fn wrong_start(built: &mut Built, random: &mut Prng) -> Option<At> {
    let field = random.pick_any(&built.named("free position"))?;
    let own = built.value(&field);
    let end = built.bytes.len() as u64;
    let wrong = [own + 8, own - 8, own | 1 << 32, own | 1 << 63, own / 8, 0, 16, end, u64::MAX];
    let value = random.pick(&wrong);
    built.set(&field, value);
    let starts: Vec<u64> = built.starts.iter().map(|start| *start as u64).collect();
    (!starts.contains(&value)).then_some(At::Header)
}

/// The size of the content, with or without checksum, or another.
fn wrong_size(built: &mut Built, random: &mut Prng) -> Option<At> {
    let field = random.pick_any(&built.named("free size"))?;
    let own = built.value(&field);
    let wrong = [own - 8, own - 12, own - 4, own + 8, 0, own | 0x8000_0000, 0xffff_ffff];
    built.set(&field, random.pick(&wrong));
    Some(At::Header)
}
