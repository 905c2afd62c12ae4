//! Strings that are no identifiers (G section 3.6.1), each for one reason but for `_` alone.

use gvrs_tests::prng::Prng;

#[derive(Clone, Copy)]
pub enum BadName {
    Empty,
    TooLong,
    Beginning,
    Character,
    NotAscii,
    Ending,
    Underscores,
    Underscore,
}

/// A bad name in place of a good one.
pub fn bad_name(bad: BadName, own: &[u8], random: &mut Prng) -> Vec<u8> {
    match bad {
        BadName::Empty => Vec::new(),
        BadName::TooLong => vec![b'a'; random.pick(&[33, 34, 64, 256, 257, 300])],
        BadName::Beginning => {
            let mut name = good(random);
            name[0] = random.pick(b"0189_");
            name
        }
        BadName::Character => with(random.pick(b"\0 -./:@[\\]^`{|}~\x7f"), random),
        BadName::NotAscii => with(random.pick(&[0x80, 0xaa, 0xc3, 0xe9, 0xff]), random),
        BadName::Ending => underscore_last(own),
        BadName::Underscores => [b"a", &[b'_'; 31][..]].concat(),
        BadName::Underscore => b"_".to_vec(),
    }
}

/// The name with its last byte an underscore, or with one behind its only letter.
fn underscore_last(own: &[u8]) -> Vec<u8> {
    let mut name = own.to_vec();
    name.truncate(own.len().max(2) - 1);
    name.push(b'_');
    name
}

fn good(random: &mut Prng) -> Vec<u8> {
    vec![b'b'; random.between(1, 32)]
}

/// A name with that byte anywhere, often as its first.
fn with(byte: u8, random: &mut Prng) -> Vec<u8> {
    let mut name = good(random);
    let any = random.below(name.len());
    name[random.pick(&[0, any])] = byte;
    name
}
