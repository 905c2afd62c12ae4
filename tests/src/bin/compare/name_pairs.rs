//! Names compared: whether they are equal, and how many byte pairs were read.

use gvrs_tests::library;
use gvrs_tests::prng::Prng;
use gvrs_tests::second::names::compare;

use crate::run::Run;

/// Req 04's samples: two names, whether they are equal, the pairs read.
const SAMPLES: [(&[u8], &[u8], bool, u64); 6] = [
    (b"", b"", true, 0),
    (b"score", b"scores", false, 0),
    (b"score", b"Score", false, 1),
    (b"score", b"scare", false, 3),
    (b"score", b"scorf", false, 5),
    (b"score", b"score", true, 5),
];

const LONGEST: usize = 300;

const MARK: u64 = 0x5a5a_5a5a_a5a5_a5a5;

pub fn section(run: &mut Run, random: &mut Prng) {
    for (a, b, equal, pairs) in SAMPLES {
        if run.pair_of_names(a, b) != (equal, pairs) || run.pair_of_names(b, a) != (equal, pairs) {
            run.fault("names compared: the second implementation is wrong", &[a, b].concat());
        }
    }
    every_short_pair(run);
    for length in (0..=LONGEST).step_by(if run.small { 100 } else { 1 }) {
        one_bit_turned(run, length, random);
        one_begins_the_other(run, length, random);
    }
    in_one_buffer(run, random);
    out_of_any_length(run, random);
}

impl Run {
    /// Asks both of two names, each an allocation of exactly its length, so that valgrind sees a
    /// read behind it. They must agree.
    fn pair_of_names(&mut self, a: &[u8], b: &[u8]) -> (bool, u64) {
        let (a, b): (Box<[u8]>, Box<[u8]>) = (a.into(), b.into());
        self.names_as_they_lie(&a, &b)
    }

    fn names_as_they_lie(&mut self, a: &[u8], b: &[u8]) -> (bool, u64) {
        let (equal, pairs) = library::compare_names(a, b);
        let from_second = compare(a, b);
        self.name_pairs += 1;
        if (equal, pairs) != (u32::from(from_second.0), from_second.1) {
            let text = format!("names compared: library {equal}, {pairs}, second {from_second:?}");
            self.fault(&text, &[a, b].concat());
        }
        from_second
    }
}

/// All pairs of strings over three letters of at most four letters.
fn every_short_pair(run: &mut Run) {
    let mut strings: Vec<Vec<u8>> = vec![Vec::new()];
    let mut last = strings.clone();
    for _ in 0..if run.small { 2 } else { 4 } {
        let longer = |string: &Vec<u8>| b"abB".map(|letter| [&string[..], &[letter]].concat());
        last = last.iter().flat_map(longer).collect();
        strings.extend_from_slice(&last);
    }
    for a in &strings {
        for b in &strings {
            run.pair_of_names(a, b);
        }
    }
}

/// A string and itself; then with one bit turned, at each position.
fn one_bit_turned(run: &mut Run, length: usize, random: &mut Prng) {
    let a = random.bytes(length);
    run.pair_of_names(&a, &a);
    for at in 0..length {
        let mut b = a.clone();
        b[at] ^= 1 << random.below(8);
        if run.pair_of_names(&a, &b) != (false, at as u64 + 1) {
            run.fault("names compared: one bit turned, other pairs", &b);
        }
    }
}

fn one_begins_the_other(run: &mut Run, length: usize, random: &mut Prng) {
    let a = random.bytes(length + 1);
    for longer in [&a[..], &[&a[..], b"b"].concat()] {
        for (a, b) in [(&a[..length], longer), (longer, &a[..length])] {
            if run.pair_of_names(a, b) != (false, 0) {
                run.fault("names compared: of two lengths, and pairs read", longer);
            }
        }
    }
}

/// Parts of one buffer that overlap, are one or touch, in a text that repeats itself and in one
/// that does not.
fn in_one_buffer(run: &mut Run, random: &mut Prng) {
    for _ in 0..run.times(20_000) {
        let period = random.between(1, 4);
        let mut buffer: Vec<u8> = (0..64).map(|at| b'a' + (at % period) as u8).collect();
        if random.one_in(2) {
            let at = random.below(buffer.len());
            buffer[at] = b'z';
        }
        let length = random.below(33);
        let [a, b] = [random.below(32), random.below(32)];
        let other = if random.one_in(4) { random.below(33) } else { length };
        run.names_as_they_lie(&buffer[a..a + length], &buffer[b..b + other]);
    }
}

/// The answer does not depend on `out`; its first holds the pairs, the others stay; so does the
/// memory around it.
fn out_of_any_length(run: &mut Run, random: &mut Prng) {
    for _ in 0..run.times(1000) {
        let length = random.between(1, 8);
        let a: Vec<u8> = (0..length).map(|_| random.pick(b"ab")).collect();
        let mut b = a.clone();
        b[random.below(length)] = b'b';
        let (equal, pairs) = run.pair_of_names(&a, &b);
        for length in [0, 1, 3] {
            let mut memory = [MARK; 6];
            let answered = library::compare_names_into(&a, &b, &mut memory[1..1 + length]);
            let mut expected = [MARK; 6];
            expected[1..1 + length].iter_mut().take(1).for_each(|number| *number = pairs);
            if answered != u32::from(equal) || memory != expected {
                run.fault(&format!("names compared: out of {length}: {memory:x?}"), &b);
            }
        }
    }
}
