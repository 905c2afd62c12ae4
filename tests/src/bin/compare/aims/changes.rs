//! Changes that several aims share.

use gvrs_tests::build::{Built, Field};
use gvrs_tests::page::Page;
use gvrs_tests::prng::Prng;

use crate::damage::At;

// Numbers.

/// Sets the high bit, or makes the field one of the ends of the negative Integers.
pub fn make_negative(built: &mut Built, field: &Field, random: &mut Prng) {
    let value = built.value(field) | 0x8000_0000;
    built.set(field, random.pick(&[value, 0x8000_0000, 0xffff_ffff]));
}

/// A negative number in one of the fields of that name.
pub fn negative(built: &mut Built, name: &str, random: &mut Prng) -> Option<Field> {
    let field = random.pick_any(&built.named(name))?;
    make_negative(built, &field, random);
    Some(field)
}

/// Swaps two different values of fields of that name.
pub fn swapped(built: &mut Built, name: &str, random: &mut Prng) -> Option<At> {
    let fields = built.named(name);
    let (one, other) = (random.pick_any(&fields)?, random.pick_any(&fields)?);
    let (first, second) = (built.value(&one), built.value(&other));
    built.set(&one, second);
    built.set(&other, first);
    (first != second).then_some(At::Header)
}

/// Tiles down and across, by the header's fields.
pub fn tile_grid(built: &Built) -> (u64, u64) {
    let value = |name| built.value(&built.only(name));
    let down = value("grid rows").div_ceil(value("tile rows"));
    let across = value("grid columns").div_ceil(value("tile columns"));
    (down, across)
}

// References of the header.

/// Sets an eight-byte reference to a position near its own, far behind the file or near 2^64, none
/// of which is the content of a record.
pub fn wrong_content(built: &mut Built, field: &Field, random: &mut Prng) -> Option<At> {
    let own = built.value(field);
    if own == 0 {
        return None;
    }
    let end = built.bytes.len() as u64;
    let near = [own - 8, own + 8, own - 1, own + 1, own + 4, own / 8, own * 8];
    let far = [own | 1 << 32, own | 1 << 63, end, end + 8, u64::MAX, u64::MAX - 7, 4, 8, 16, 24];
    let value = if random.one_in(2) { random.pick(&near) } else { random.pick(&far) };
    built.set(field, value);
    let contents: Vec<u64> = built.starts.iter().map(|start| *start as u64 + 8).collect();
    (!contents.contains(&value)).then_some(At::Header)
}

/// The content of another record, which has another type.
pub fn content_of_another(built: &mut Built, name: &str, random: &mut Prng) -> Option<At> {
    let field = built.only(name);
    let own = built.value(&field);
    let other = built.starts[random.below(built.starts.len())] as u64 + 8;
    built.set(&field, other);
    (other != own).then_some(At::Header)
}

/// Zero in place of a reference.
pub fn zero(built: &mut Built, name: &str) -> Option<At> {
    let field = built.only(name);
    let own = built.value(&field);
    built.set(&field, 0);
    (own != 0).then_some(At::Header)
}

/// A reference where there is no such directory.
pub fn reference_to_nothing(built: &mut Built, name: &str, random: &mut Prng) -> Option<At> {
    let field = built.only(name);
    let own = built.value(&field);
    let end = built.bytes.len() as u64;
    built.set(&field, random.pick(&[8, 16, 24, end, end + 8, u64::MAX, 1 << 63]));
    (own == 0).then_some(At::Header)
}

// Directories.

/// The directory of that type is left out, though there is something to list.
pub fn no_directory(page: &mut Page, directory_type: u8, listed_type: u8) -> Option<At> {
    page.of_type(listed_type).first()?;
    let number = *page.of_type(directory_type).first()?;
    page.remove(number);
    Some(At::Header)
}

/// Eight bytes or more beyond a directory's least length.
pub fn longer_directory(page: &mut Page, directory_type: u8, random: &mut Prng) -> Option<At> {
    let number = *page.of_type(directory_type).first()?;
    page.records[number].surplus = 8 * random.between(1, 3);
    Some(At::Header)
}

/// The list of the directory of that type.
pub fn list(page: &mut Page, directory_type: u8) -> Option<&mut Vec<usize>> {
    let number = *page.of_type(directory_type).first()?;
    page.records[number].list()
}

pub fn left_out(page: &mut Page, directory_type: u8, random: &mut Prng) -> Option<At> {
    let listed = list(page, directory_type)?;
    if listed.is_empty() {
        return None;
    }
    listed.remove(random.below(listed.len()));
    Some(At::Header)
}

pub fn listed_twice(page: &mut Page, directory_type: u8, random: &mut Prng) -> Option<At> {
    let listed = list(page, directory_type)?;
    let number = random.pick_any(listed)?;
    listed.insert(random.between(0, listed.len()), number);
    Some(At::Header)
}

/// As many entries as before, one of them twice and another not at all.
pub fn in_place_of_another(page: &mut Page, directory_type: u8, random: &mut Prng) -> Option<At> {
    let listed = list(page, directory_type)?;
    if listed.is_empty() {
        return None;
    }
    let (from, to) = (random.below(listed.len()), random.below(listed.len()));
    listed[to] = listed[from];
    (from != to).then_some(At::Header)
}

/// One more entry, of a record that is not of the type listed.
pub fn another_record(
    page: &mut Page,
    directory_type: u8,
    listed_type: u8,
    random: &mut Prng,
) -> Option<At> {
    let number = random.below(page.records.len());
    let other = page.records[number].record_type() != listed_type;
    let listed = list(page, directory_type)?;
    listed.insert(random.between(0, listed.len()), number);
    other.then_some(At::Header)
}
