//! M32 codes: every number comes back, and what is no code stays unread.

use gvrs_tests::prng::Prng;

use crate::run::Run;

const TABLE_SORT: &str = "M32: the table";
const EDGES_SORT: &str = "M32: the ends of every range, one to either side";
const STRINGS_SORT: &str = "M32: every string of one and two bytes, and behind 127 and -127";
const SEQUENCES_SORT: &str = "M32: sequences at random, written and read back";
const BYTES_SORT: &str = "M32: random bytes read";

/// Req 01's codes.
const TABLE: [(i32, &[u8]); 15] = [
    (0, &[0x00]),
    (126, &[0x7e]),
    (-126, &[0x82]),
    (127, &[0x7f, 0x00]),
    (-127, &[0x81, 0x00]),
    (254, &[0x7f, 0x7f]),
    (255, &[0x7f, 0x80, 0x00]),
    (16_638, &[0x7f, 0xff, 0x7f]),
    (16_639, &[0x7f, 0x80, 0x80, 0x00]),
    (2_113_790, &[0x7f, 0xff, 0xff, 0x7f]),
    (2_113_791, &[0x7f, 0x80, 0x80, 0x80, 0x00]),
    (270_549_246, &[0x7f, 0xff, 0xff, 0xff, 0x7f]),
    (270_549_247, &[0x7f, 0x80, 0x80, 0x80, 0x80, 0x00]),
    (i32::MAX, &[0x7f, 0x86, 0xfe, 0xfe, 0xfe, 0x00]),
    (i32::MIN, &[0x80]),
];

/// A magnitude of 2147483648, and a sixth byte.
const NO_CODES: [&[u8]; 2] =
    [&[0x7f, 0x86, 0xfe, 0xfe, 0xfe, 0x01], &[0x7f, 0x80, 0x80, 0x80, 0x80, 0x80, 0x00]];

const EDGES: [i64; 7] = [0, 127, 255, 16_639, 2_113_791, 270_549_247, i32::MAX as i64];

const LENGTHS: [&str; 6] = [
    "M32: a number of 1 byte comes back",
    "M32: a number of 2 bytes comes back",
    "M32: a number of 3 bytes comes back",
    "M32: a number of 4 bytes comes back",
    "M32: a number of 5 bytes comes back",
    "M32: a number of 6 bytes comes back",
];
const ENDS: [&str; 4] = [
    "M32: all bytes are read",
    "M32: the room ends before the bytes",
    "M32: the bytes end inside a code",
    "M32: what stands there is no code",
];

pub fn section(run: &mut Run, random: &mut Prng) {
    for thing in LENGTHS.into_iter().chain(ENDS) {
        run.packed.want(thing);
    }
    table(run);
    edges(run);
    strings(run, random);
    sequences(run, random);
    random_bytes(run, random);
}

fn table(run: &mut Run) {
    for (number, code) in TABLE {
        let negative = number.wrapping_neg();
        if run.m32_write(TABLE_SORT, &[number]) != code {
            run.fault(&format!("M32: {number} is another code"), code);
        }
        if number > 0 {
            let mut code = code.to_vec();
            code[0] = code[0].wrapping_neg();
            if run.m32_write(TABLE_SORT, &[negative]) != code {
                run.fault(&format!("M32: {negative} is another code"), &code);
            }
        }
    }
    for bytes in NO_CODES {
        for first in [127, 129] {
            let mut bytes = bytes.to_vec();
            bytes[0] = first;
            if !run.m32_read(TABLE_SORT, &bytes, 3).is_empty() {
                run.fault("M32: no code is read", &bytes);
            }
        }
    }
    run.m32_write(TABLE_SORT, &[]);
    for most in 0..3 {
        run.m32_read(TABLE_SORT, &[], most);
    }
}

fn edges(run: &mut Run) {
    let near = |edge: i64| [-2, -1, 0, 1, 2].map(|more| edge + more);
    for edge in EDGES.into_iter().flat_map(near) {
        for number in [edge, -edge].into_iter().filter_map(|number| i32::try_from(number).ok()) {
            let codes = run.m32_write(EDGES_SORT, &[number]);
            run.packed.reached(LENGTHS[codes.len() - 1]);
            // Every part of the code, and it with a byte behind.
            for length in 0..codes.len() {
                run.m32_read(EDGES_SORT, &codes[..length], 2);
            }
            for behind in [0x00, 0x7f, 0x80, 0xff] {
                run.m32_read(EDGES_SORT, &[&codes[..], &[behind]].concat(), 2);
            }
        }
    }
}

fn strings(run: &mut Run, random: &mut Prng) {
    let step = if run.small { 97 } else { 1 };
    for first in 0..=255u8 {
        run.m32_read(STRINGS_SORT, &[first], 2);
    }
    for pair in (0..=u16::MAX).step_by(step) {
        let pair = pair.to_be_bytes();
        run.m32_read(STRINGS_SORT, &pair, random.below(3));
        for first in [127, 129] {
            run.m32_read(STRINGS_SORT, &[first, pair[0], pair[1]], random.between(1, 3));
        }
    }
}

/// Numbers of every length, long ones as often as short ones.
fn number(random: &mut Prng) -> i32 {
    let any = random.integer() as i32;
    let small = any >> random.below(32);
    if random.one_in(8) {
        random.pick(&[i32::MIN, i32::MAX, 0, -1, 127, -127])
    } else {
        small
    }
}

fn sequences(run: &mut Run, random: &mut Prng) {
    for _ in 0..run.times(20_000) {
        let numbers: Vec<i32> = (0..random.below(30)).map(|_| number(random)).collect();
        let codes = run.m32_write(SEQUENCES_SORT, &numbers);
        let most = random.between(0, numbers.len() + 2);
        let read = run.m32_read(SEQUENCES_SORT, &codes, most);
        if read != numbers[..most.min(numbers.len())] {
            run.fault("M32: other numbers come back", &codes);
        }
        let cut = random.between(0, codes.len());
        run.m32_read(SEQUENCES_SORT, &codes[..cut], numbers.len());
        for number in numbers.iter().take(2) {
            let code = run.m32_write(SEQUENCES_SORT, &[*number]);
            run.packed.reached(LENGTHS[code.len() - 1]);
        }
    }
    let many: Vec<i32> = (0..run.times(200_000)).map(|_| number(random)).collect();
    run.m32_write(SEQUENCES_SORT, &many);
}

/// Bytes with many that begin or continue a magnitude.
fn random_bytes(run: &mut Run, random: &mut Prng) {
    for _ in 0..run.times(40_000) {
        let length = random.below(24);
        let byte = |random: &mut Prng| match random.below(4) {
            0 => random.pick(&[127, 129, 128, 0x80, 0xff, 0x86, 0xfe]),
            1 => random.byte() | 0x80,
            _ => random.byte(),
        };
        let bytes: Vec<u8> = (0..length).map(|_| byte(random)).collect();
        let most = random.between(0, length + 1);
        let read = run.m32_read(BYTES_SORT, &bytes, most);
        let taken = gvrs_tests::second::m32::write(&read).len();
        let rest = &bytes[taken..];
        let end = match () {
            () if rest.is_empty() => 0,
            () if read.len() == most => 1,
            () if could_go_on(rest) => 2,
            () => 3,
        };
        run.packed.reached(ENDS[end]);
        if !bytes.starts_with(&gvrs_tests::second::m32::write(&read)) {
            run.fault("M32: the numbers read have other codes", &bytes);
        }
    }
}

/// Whether some bytes behind these would make a code of them.
fn could_go_on(bytes: &[u8]) -> bool {
    [&[0][..], &[0x80, 0], &[0x80, 0x80, 0], &[0x80, 0x80, 0x80, 0], &[0x80; 4], &[0x80; 5]]
        .into_iter()
        .any(|more| {
            let bytes = [bytes, more, &[0]].concat();
            !gvrs_tests::second::m32::read(&bytes, 1).0.is_empty()
        })
}
