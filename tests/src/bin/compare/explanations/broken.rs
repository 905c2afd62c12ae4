//! Pages with one rule broken each, and what has to be said of them.

use std::rc::Rc;

use gvrs_tests::build::{build, make_checksums_good, Built, Field};
use gvrs_tests::page::Page;

use super::ask::ask;
use super::order::Named;
use super::{directories, heads, records};
use crate::run::Run;

/// Bytes to put at a position.
pub type Patch = (usize, Vec<u8>);

/// Where a rule is named: the number of what breaks it and the position of its field.
type At = Rc<dyn Fn(&Built) -> [usize; 2]>;

pub struct Broken {
    pub named: Named,
    pub file: Vec<u8>,
    pub made: Made,
}

/// What was done to the good page.
pub enum Made {
    /// Bytes were put into it, and checksums made good.
    Patched(Vec<Patch>),
    /// Bits of a byte were turned behind everything else, checksums left as they are.
    Turned(usize, u8),
    /// Its description was changed.
    Changed(Box<Changed>),
    /// It was changed so much that nothing else can be done to it, or it is other bytes.
    Other,
}

pub struct Changed {
    pub page: Page,
    at: At,
}

impl Changed {
    /// Where the rule is named, where more was changed.
    pub fn named(&self, rule: u64, built: &Built) -> Named {
        let [number, position] = (self.at)(built);
        (rule, number as u64, position as u64)
    }
}

/// A good page, and what was made of it.
pub struct Breaker {
    pub page: Page,
    pub good: Built,
    pub made: Vec<Broken>,
}

impl Breaker {
    pub fn new(page: &Page) -> Breaker {
        Breaker { page: page.clone(), good: build(page), made: Vec::new() }
    }

    /// Every rule broken, but rule 27.
    pub fn of_every_rule(page: &Page) -> Breaker {
        let mut breaker = Breaker::new(page);
        heads::section(&mut breaker);
        records::section(&mut breaker);
        directories::section(&mut breaker);
        breaker
    }

    /// The good page with some bytes changed, and checksums made good.
    pub fn patch(&mut self, named: Named, patches: Vec<Patch>) {
        let made = Made::Patched(patches);
        let file = with(&self.good.bytes, &[&made]);
        self.made.push(Broken { named, file, made });
    }

    /// The good page with bits of a byte turned, checksums left as they are.
    pub fn turn(&mut self, named: Named, at: usize, bits: u8) {
        let made = Made::Turned(at, bits);
        let file = with(&self.good.bytes, &[&made]);
        self.made.push(Broken { named, file, made });
    }

    /// The good page with one field set.
    pub fn set(&mut self, named: Named, field: Field, value: u64) {
        self.patch(named, vec![(field.at, value.to_le_bytes()[..field.width].to_vec())]);
    }

    /// A field set; it is also the position that has to be named.
    pub fn set_there(&mut self, rule: u64, number: usize, field: Field, value: u64) {
        self.set((rule, number as u64, field.at as u64), field, value);
    }

    /// The first byte of a field set.
    pub fn begin_with(&mut self, rule: u64, number: usize, field: Field, byte: u8) {
        self.patch((rule, number as u64, field.at as u64), vec![(field.at, vec![byte])]);
    }

    /// Another description. The number and the position are asked of what is built of it.
    pub fn change(
        &mut self,
        rule: u64,
        change: impl Fn(&mut Page),
        at: impl Fn(&Built) -> [usize; 2] + 'static,
    ) {
        let mut page = self.page.clone();
        change(&mut page);
        let built = build(&page);
        let changed = Changed { page, at: Rc::new(at) };
        let named = changed.named(rule, &built);
        let made = Made::Changed(Box::new(changed));
        self.made.push(Broken { named, file: built.bytes, made });
    }

    /// The same, where no other rule can be broken beside it.
    pub fn change_alone(
        &mut self,
        rule: u64,
        change: impl Fn(&mut Page),
        at: impl Fn(&Built) -> [usize; 2] + 'static,
    ) {
        self.change(rule, change, at);
        if let Some(last) = self.made.last_mut() {
            last.made = Made::Other;
        }
    }

    /// Other bytes.
    pub fn file(&mut self, named: Named, file: Vec<u8>) {
        self.made.push(Broken { named, file, made: Made::Other });
    }

    /// The good page is accepted; of each other page the rule is named at its number and position.
    pub fn ask(&self, run: &mut Run) {
        let accepted = ask(run, "good", &self.good.bytes);
        if accepted.answer != (0, 0) {
            run.fault(&format!("why refused: {accepted:?} of a good page"), &self.good.bytes);
        }
        for broken in &self.made {
            let explained = ask(run, "one rule broken", &broken.file);
            if explained.named() == broken.named {
                run.explanations.alone(broken.named.0);
            } else {
                let text = format!("why refused: {:?} broken, {explained:?}", broken.named);
                run.fault(&text, &broken.file);
            }
        }
    }
}

/// The good page with all of it done to it, what is turned last.
pub fn with(good: &[u8], made: &[&Made]) -> Vec<u8> {
    let mut file = good.to_vec();
    for it in made {
        if let Made::Patched(patches) = it {
            for (at, bytes) in patches {
                file[*at..at + bytes.len()].copy_from_slice(bytes);
            }
        }
    }
    if made.iter().any(|it| matches!(it, Made::Patched(_))) {
        make_checksums_good(&mut file);
    }
    for it in made {
        if let Made::Turned(at, bits) = it {
            file[*at] ^= bits;
        }
    }
    file
}

/// Whether both put bytes at one position.
pub fn overlap(one: &Made, other: &Made) -> bool {
    match (one, other) {
        (Made::Patched(one), Made::Patched(other)) => one.iter().any(|(at, bytes)| {
            let apart = |(b, more): &Patch| at + bytes.len() <= *b || b + more.len() <= *at;
            !other.iter().all(apart)
        }),
        (Made::Turned(one, _), Made::Turned(other, _)) => one == other,
        _ => false,
    }
}

/// The first, a middle and the last of so many.
pub fn ends(count: usize) -> [usize; 3] {
    [0, count / 2, count - 1]
}
