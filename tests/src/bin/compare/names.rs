//! Names that end in an underscore, with faults of other stages too, and the library's answer for a
//! name by itself.

use gvrs_tests::build::build;
use gvrs_tests::library;
use gvrs_tests::page::{Body, Metadata, Page};
use gvrs_tests::prng::Prng;
use gvrs_tests::second::names::{is_identifier, LONGEST_NAME};

use crate::run::Run;

const SORT: &str = "names, with other faults";

/// Stages of faults: 3 is an element's name, 8 a metadata record's.
const STAGES: [u32; 5] = [2, 3, 4, 5, 8];

pub fn section(run: &mut Run, random: &mut Prng) {
    let names: [&[u8]; 3] = [b"z_", b"_", b"a_______________________________"];
    for name in names {
        every_set_of_faults(run, name);
    }
    known_names(run);
    // Every byte, or a few of them.
    let bytes: Vec<u8> = (0..=255).step_by(if run.small { 50 } else { 1 }).collect();
    short_names(run, &bytes);
    long_names(run, &bytes, random);
}

/// The first of the faults decides.
fn every_set_of_faults(run: &mut Run, name: &[u8]) {
    for set in 0..1 << STAGES.len() {
        let chosen = (0..STAGES.len()).filter(|at| set >> at & 1 == 1);
        let faults: Vec<u32> = chosen.map(|at| STAGES[at]).collect();
        let built = build(&page_with(&faults, name));
        let mut file = built.bytes;
        if faults.contains(&2) {
            file[13] = 5;
        }
        let expected = match faults.first() {
            None => (0, 0),
            Some(8) => (8, built.starts[1] as u64),
            Some(stage) => (*stage, 0),
        };
        run.expect(SORT, &format!("faults of stages {faults:?}"), &file, expected);
    }
}

/// A page with these faults, but for that of stage 2.
fn page_with(faults: &[u32], name: &[u8]) -> Page {
    let name = |stage| if faults.contains(&stage) { name } else { b"z" };
    let mut page = Page::plain();
    page.elements[0].name = name(3).to_vec();
    if faults.contains(&4) {
        page.grid_rows = 65_537;
    }
    page.time_opened = u64::from(faults.contains(&5));
    page.insert(1, Body::Metadata(Metadata::new(name(8), 0)));
    page.insert(2, Body::MetadataDirectory(vec![1]));
    page
}

impl Run {
    /// Asks both whether the bytes are a name. They must agree.
    fn name(&mut self, name: &[u8]) -> bool {
        // An allocation of exactly the name's length, so that valgrind sees a read behind it.
        let lent: Box<[u8]> = name.into();
        let from_library = library::is_identifier(&lent);
        let from_second = is_identifier(name, LONGEST_NAME);
        self.names += 1;
        if from_library != u32::from(from_second) {
            let text = format!("a name: library {from_library}, second {from_second}");
            self.fault(&text, name);
        }
        from_second
    }
}

fn known_names(run: &mut Run) {
    let bad: [&[u8]; 7] = [b"", b"score_", b"_score", b"_", b"a_", b"a__", b"a_1_"];
    let good: [&[u8]; 5] = [b"score_1", b"score_rule", b"a", b"a__b", b"a_1"];
    for (names, expected) in [(&bad[..], false), (&good[..], true)] {
        for name in names {
            if run.name(name) != expected {
                run.fault("a name: the second implementation is wrong", name);
            }
        }
    }
}

fn short_names(run: &mut Run, bytes: &[u8]) {
    for first in bytes {
        run.name(&[*first]);
        for second in bytes {
            run.name(&[*first, *second]);
        }
    }
}

/// 31 to 33 bytes: each byte anywhere among letters and among underscores, and characters of names
/// at random. Longer ones.
fn long_names(run: &mut Run, bytes: &[u8], random: &mut Prng) {
    for length in 31..=33 {
        for others in [b'n', b'_'] {
            for at in 0..length {
                for byte in bytes {
                    let mut name = vec![others; length];
                    name[0] = b'n';
                    name[at] = *byte;
                    run.name(&name);
                }
            }
        }
        for _ in 0..run.times(1000) {
            let name: Vec<u8> = (0..length).map(|_| random.pick(b"azAZ09__")).collect();
            run.name(&name);
        }
    }
    for length in [34, 64, 256, 257, 288, 65_536, 65_537] {
        run.name(&vec![b'n'; length]);
    }
}
