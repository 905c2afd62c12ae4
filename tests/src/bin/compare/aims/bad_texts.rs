//! Strings that are not UTF-8 (RFC 3629), each at one place.

use gvrs_tests::prng::Prng;
use gvrs_tests::random_page::character;

#[derive(Clone, Copy, Debug)]
pub enum BadText {
    /// A byte is FF.
    NoOctet,
    /// A lead byte stands alone.
    LoneLead,
    /// The last character lacks its last byte.
    Cut,
    /// A character is overlong, a surrogate, above U+10FFFF or a tail without a lead.
    NoCharacter,
}

pub const BAD_TEXTS: [BadText; 4] =
    [BadText::NoOctet, BadText::LoneLead, BadText::Cut, BadText::NoCharacter];

const NO_CHARACTERS: [&[u8]; 9] = [
    b"\x80",
    b"\xc0\x80",
    b"\xc1\xbf",
    b"\xe0\x9f\xbf",
    b"\xed\xa0\x80",
    b"\xf0\x8f\xbf\xbf",
    b"\xf4\x90\x80\x80",
    b"\xf5\x80\x80\x80",
    b"\xfe",
];

/// A bad text in place of a good one.
pub fn bad_text(bad: BadText, own: &[u8], random: &mut Prng) -> Vec<u8> {
    match bad {
        BadText::NoOctet => in_place_of_a_byte(0xff, own, random),
        BadText::LoneLead => {
            let lead = random.between(0xc2, 0xf4) as u8;
            in_place_of_a_character(&[lead], own, random)
        }
        BadText::Cut => cut_by_one(own, random),
        BadText::NoCharacter => in_place_of_a_character(random.pick(&NO_CHARACTERS), own, random),
    }
}

/// The same of any kind.
pub fn any_bad_text(own: &[u8], random: &mut Prng) -> Vec<u8> {
    bad_text(random.pick(&BAD_TEXTS), own, random)
}

/// An empty text gets that byte.
fn in_place_of_a_byte(byte: u8, own: &[u8], random: &mut Prng) -> Vec<u8> {
    let mut text = own.to_vec();
    text.resize(own.len().max(1), 0);
    let at = random.below(text.len());
    text[at] = byte;
    text
}

/// An empty text gets these bytes. What stands behind them begins a character.
fn in_place_of_a_character(bytes: &[u8], own: &[u8], random: &mut Prng) -> Vec<u8> {
    let begins = |at: &usize| own[*at] & 0xc0 != 0x80;
    let starts: Vec<usize> = (0..own.len()).filter(begins).collect();
    let start = random.pick_any(&starts).unwrap_or(0);
    let end = (start + 1..own.len()).find(begins).unwrap_or(own.len());
    [&own[..start], bytes, &own[end..]].concat()
}

/// A text that ends in a character of one byte gets a longer one first.
fn cut_by_one(own: &[u8], random: &mut Prng) -> Vec<u8> {
    let mut text = own.to_vec();
    if own.last().is_none_or(u8::is_ascii) {
        let longer = character(random.between(2, 4), random);
        text.extend(longer.to_string().bytes());
    }
    text.pop();
    text
}
