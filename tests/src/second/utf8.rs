//! UTF-8 by RFC 3629, section 4. Descriptive strings are held to it (G Table 5, Req 06).

use std::ops::RangeInclusive;

type Octet = RangeInclusive<u8>;

/// UTF8-tail.
const TAIL: Octet = 0x80..=0xbf;

/// UTF8-char: UTF8-1, UTF8-2, the four alternatives of UTF8-3, the three of UTF8-4.
const CHARACTERS: [&[Octet]; 9] = [
    &[0x00..=0x7f],
    &[0xc2..=0xdf, TAIL],
    &[0xe0..=0xe0, 0xa0..=0xbf, TAIL],
    &[0xe1..=0xec, TAIL, TAIL],
    &[0xed..=0xed, 0x80..=0x9f, TAIL],
    &[0xee..=0xef, TAIL, TAIL],
    &[0xf0..=0xf0, 0x90..=0xbf, TAIL, TAIL],
    &[0xf1..=0xf3, TAIL, TAIL, TAIL],
    &[0xf4..=0xf4, 0x80..=0x8f, TAIL, TAIL],
];

/// UTF8-octets: characters one after another, perhaps none.
pub fn is_utf8(text: &[u8]) -> bool {
    let mut rest = text;
    while !rest.is_empty() {
        match CHARACTERS.iter().find(|character| begins_with(rest, character)) {
            Some(character) => rest = &rest[character.len()..],
            None => return false,
        }
    }
    true
}

fn begins_with(bytes: &[u8], character: &[Octet]) -> bool {
    let fits = character.iter().zip(bytes).all(|(octet, byte)| octet.contains(byte));
    fits && character.len() <= bytes.len()
}
