//! Metadata records whose pairs of name and ID are hard to tell apart.

use crate::page::{Body, Metadata, Page, Record};
use crate::second::crc32c::crc32c;

/// A name and an ID.
pub type Key = (Vec<u8>, u32);

/// A plain page with metadata records of these keys, in this order. `listed` has their numbers in
/// the order of the list.
pub fn page_of(keys: &[Key], listed: &[usize]) -> Page {
    let mut page = Page::plain();
    let first = page.records.len();
    let record = |(name, id): &Key| Record::new(Body::Metadata(Metadata::new(name, *id)));
    page.records.extend(keys.iter().map(record));
    let listed = listed.iter().map(|number| first + number).collect();
    page.records.push(Record::new(Body::MetadataDirectory(listed)));
    page
}

const LETTERS: &[u8; 62] = b"0123456789ABCDEFGHIJKLMNOPQRSTUVWXYZabcdefghijklmnopqrstuvwxyz";

/// The name with that number of those of one length, 5 or longer, that are alike but for their last
/// four bytes. The first of the four changes least often.
pub fn alike(length: usize, number: usize) -> Vec<u8> {
    let mut name = vec![b'n'; length];
    let mut left = number;
    for byte in name[length - 4..].iter_mut().rev() {
        *byte = LETTERS[left % 62];
        left /= 62;
    }
    name
}

/// The same with the four bytes in reverse: the last changes least often.
pub fn alike_reversed(length: usize, number: usize) -> Vec<u8> {
    let mut name = alike(length, number);
    name[length - 4..].reverse();
    name
}

/// The same with one of twelve letters as the first byte: alike but for the first and the last four.
pub fn clustered(length: usize, number: usize) -> Vec<u8> {
    let mut name = alike(length, number / 12);
    name[0] = b'a' + (number % 12) as u8;
    name
}

/// The same but for one name of 64, which has another letter before the last four bytes, now here, now
/// there: each part of the names tells some of them apart, and most of them not.
pub fn stepped(length: usize, number: usize) -> Vec<u8> {
    let mut name = alike(length, number);
    if number % 64 == 0 {
        name[number / 64 % (length - 4)] = b'A' + (number / 4_096 % 26) as u8;
    }
    name
}

/// Groups of so many names, 62 at most, of one length, 6 or longer: the groups differ in bytes 2 to 5,
/// the names of a group in their last byte alone.
pub fn grouped(group: usize, length: usize, number: usize) -> Vec<u8> {
    let mut name = vec![b'n'; length];
    name[1..5].copy_from_slice(&alike(5, number / group)[1..]);
    name[length - 1] = LETTERS[number % group];
    name
}

/// So many different pairs on one place of a table of 131,072 places for each 2,048 of them, by the
/// CRC32C of the name and the ID times any number: every ID is a multiple of the number of places,
/// and every name, of seven letters and digits, has the same remainder by it.
pub fn colliding(count: usize) -> Vec<Key> {
    let places = (count as u64 / 2_048 + 1) * 131_072;
    let ids: Vec<u32> =
        (0..=u64::from(u32::MAX)).step_by(places as usize).map(|id| id as u32).collect();
    let names = names_of_one_remainder(places, count.div_ceil(ids.len()));
    let pairs = names.iter().flat_map(|name| ids.iter().map(|id| (name.clone(), *id)));
    pairs.take(count).collect()
}

/// So many names whose CRC32C has the remainder 1.
fn names_of_one_remainder(places: u64, count: usize) -> Vec<Vec<u8>> {
    let table = table();
    let sums: Vec<u32> =
        (1..=u64::from(u32::MAX)).step_by(places as usize).map(|sum| sum as u32).collect();
    let mut names = Vec::new();
    for number in 0.. {
        let start =
            [b'a' + (number / 62 % 26) as u8, LETTERS[number % 62], LETTERS[number / 1_612]];
        for sum in &sums {
            let end = four_bytes(&table, !crc32c(&start), !sum);
            if end.iter().all(u8::is_ascii_alphanumeric) {
                names.push([&start[..], &end].concat());
            }
        }
        if names.len() >= count {
            break;
        }
    }
    names.truncate(count);
    names
}

/// The table of CRC32C, from the sums of single bytes.
fn table() -> Vec<u32> {
    (0..=255).map(|byte: u8| !crc32c(&[!byte]) ^ 0x00ff_ffff).collect()
}

/// The four bytes that bring the register of CRC32C from one value to another.
fn four_bytes(table: &[u32], from: u32, to: u32) -> [u8; 4] {
    let mut places = [0; 4];
    let mut register = to;
    for place in places.iter_mut().rev() {
        let high = register >> 24;
        *place = table.iter().position(|entry| entry >> 24 == high).expect("each high byte once");
        register = (register ^ table[*place]) << 8;
    }
    let mut register = from;
    places.map(|place| {
        let byte = register as u8 ^ place as u8;
        register = table[place] ^ (register >> 8);
        byte
    })
}
