//! Elements looked up by their names.

use gvrs_tests::build::{build, bytes_of};
use gvrs_tests::library;
use gvrs_tests::page::{Element, Page, SHORT};
use gvrs_tests::prng::Prng;
use gvrs_tests::random_page::{name, random_page};
use gvrs_tests::second::check::{check, Answer};
use gvrs_tests::second::elements::{find_element, ABSENT, FOUND};

use crate::aims;
use crate::damage::{each_damaged, Aim};
use crate::run::Run;

const MARK: u64 = 0x5a5a_5a5a_a5a5_a5a5;

/// What has to come about.
const WANTED: [u32; 11] = [1, 2, 3, 4, 5, 6, 7, 8, 9, FOUND, ABSENT];

pub fn section(run: &mut Run, random: &mut Prng) {
    samples(run);
    for _ in 0..run.times(3000) {
        of_page(run, &random_page(random), random);
    }
    nearly_equal_names(run, random);
    for aim in aims::all() {
        if !(run.small && aim.has_long_files()) {
            of_aim(run, &aim, random);
        }
    }
    bytes_changed(run, random);
    out_of_any_length(run, random);
}

impl Run {
    /// Asks both for a name. They must agree.
    fn look_up(&mut self, file: &[u8], name: &[u8]) -> Answer {
        // Allocations of exactly these lengths, so that valgrind sees a read behind them.
        let (lent, asked): (Box<[u8]>, Box<[u8]>) = (file.into(), name.into());
        let from_library = library::find_element(&lent, &asked);
        let from_second = find_element(file, name);
        self.look_ups[from_second.0 as usize] += 1;
        if from_library != from_second {
            let text = format!("a look-up: library {from_library:?}, second {from_second:?}");
            self.fault(&text, file);
        }
        from_second
    }

    fn looked_up(&mut self, what: &str, file: &[u8], name: &[u8], expected: Answer) {
        let answer = self.look_up(file, name);
        if answer != expected {
            let text = format!("a look-up: {what}: expected {expected:?}, second {answer:?}");
            self.fault(&text, file);
        }
    }

    /// Answers of look-ups that never came out.
    pub fn look_ups_missed(&self) -> Vec<u32> {
        WANTED.into_iter().filter(|number| self.look_ups[*number as usize] == 0).collect()
    }
}

/// Req 04's samples: `z` is element 0 of a page, `Z` is none, and a cut file gives its refusal.
fn samples(run: &mut Run) {
    let file = bytes_of(&Page::plain());
    run.looked_up("z", &file, b"z", (FOUND, 0));
    run.looked_up("Z", &file, b"Z", (ABSENT, 0));
    for length in 0..file.len() {
        let cut = &file[..length];
        run.looked_up("a cut file", cut, b"z", check(cut));
    }
}

/// Each name as the description has it, and what differs from it a little.
fn of_page(run: &mut Run, page: &Page, random: &mut Prng) {
    let file = build(page).bytes;
    let number_of = |name: &[u8]| {
        let at = page.elements.iter().position(|element| element.name == name);
        at.map_or((ABSENT, 0), |at| (FOUND, at as u64))
    };
    for (at, element) in page.elements.iter().enumerate() {
        run.looked_up("its own name", &file, &element.name, (FOUND, at as u64));
        let shorter = &element.name[..element.name.len() - 1];
        let longer = [&element.name[..], &[random.pick(b"a1_\0")]].concat();
        let mut other_case = element.name.clone();
        other_case[0] ^= 0x20;
        for near in [shorter, &longer, &other_case] {
            run.looked_up("a name near to one", &file, near, number_of(near));
        }
    }
    for other in [&b""[..], &[b'n'; 40], &random.bytes(32), &name(random)] {
        run.looked_up("another name", &file, other, number_of(other));
    }
}

/// Sixteen elements whose names begin or end alike.
fn nearly_equal_names(run: &mut Run, random: &mut Prng) {
    for length in [1, 2, 31, 32] {
        let mut page = Page::plain();
        let name_of = |letter: u8| {
            let mut name = vec![b'n'; length];
            *name.last_mut().expect("a name has a last byte") = letter;
            Element::new(SHORT, &name)
        };
        page.elements = (b'a'..=b'p').map(name_of).collect();
        of_page(run, &page, random);
    }
}

/// The check's refusal with its place, whatever name is asked for.
fn of_aim(run: &mut Run, aim: &Aim, random: &mut Prng) {
    each_damaged(aim, run.times(8.min(aim.times)), random, |page, file, refusal, _| {
        for asked in [&page.elements[0].name[..], b"", b"none"] {
            run.looked_up(aim.sentence, file, asked, refusal);
        }
    });
}

fn bytes_changed(run: &mut Run, random: &mut Prng) {
    for _ in 0..run.times(3000) {
        let page = random_page(random);
        let mut file = build(&page).bytes;
        for _ in 0..random.between(1, 3) {
            let at = random.below(file.len());
            file[at] ^= 1 << random.below(8);
        }
        for element in &page.elements {
            run.look_up(&file, &element.name);
        }
    }
}

/// The number does not depend on `out`; its first holds the element's number, the others stay; so
/// does the memory around it.
fn out_of_any_length(run: &mut Run, random: &mut Prng) {
    for _ in 0..run.times(500) {
        let page = random_page(random);
        let mut file = build(&page).bytes;
        if random.one_in(3) {
            file.truncate(random.below(file.len()));
        }
        let element = random.pick(&page.elements);
        let asked = if random.one_in(3) { &b"none"[..] } else { &element.name };
        let (number, found) = run.look_up(&file, asked);
        for length in [0, 1, 3] {
            let mut memory = [MARK; 6];
            let answered = library::find_element_into(&file, asked, &mut memory[1..1 + length]);
            let mut expected = [MARK; 6];
            expected[1..1 + length].iter_mut().take(1).for_each(|number| *number = found);
            if answered != number || memory != expected {
                run.fault(&format!("a look-up: out of {length}: {memory:x?}"), &file);
            }
        }
    }
}
