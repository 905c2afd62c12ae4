//! What was asked of rectangles, pages and elements, what came out, and what has to come about at
//! least once.

use gvrs_tests::page::FLOAT;
use gvrs_tests::second::cells::{FILL, STORED, UNPACKED};
use gvrs_tests::second::rectangles::Area;

use crate::reads::tally::count;

/// One more than the greatest number that one of the functions answers.
const NUMBERS: usize = 14;

/// What each of them answers.
const AREAS: [u32; 12] = [0, 1, 2, 3, 4, 5, 6, 7, 8, 9, 10, 13];
const PAGES: [u32; 10] = [0, 1, 2, 3, 4, 5, 6, 7, 8, 9];
const ELEMENTS: [u32; 11] = [0, 1, 2, 3, 4, 5, 6, 7, 8, 9, 10];

const TYPES: [&str; 4] = ["Integer", "integer-coded", "Float", "Short"];
const KINDS: [(u32, &str); 5] = [
    (STORED, "stored"),
    (FILL, "fill"),
    (UNPACKED, "unpacked"),
    (11, "compressed, 11"),
    (14, "malformed, 14"),
];

pub struct Tally {
    /// Questions, by sort.
    sorts: Vec<(String, usize)>,
    /// Calls that differ in a buffer or an `out` too.
    calls: usize,
    /// Answers by number: of rectangles, of pages and of elements, and of what these say.
    areas: [usize; NUMBERS],
    pub pages: [usize; NUMBERS],
    pub elements: [usize; NUMBERS],
    pub pages_said: [usize; NUMBERS],
    pub elements_said: [usize; NUMBERS],
    /// Cells in rectangles, by type and by kind.
    kinds: [[usize; KINDS.len()]; TYPES.len()],
    /// Things that have to come about, and how often they did.
    things: Vec<(String, usize)>,
}

impl Tally {
    pub fn new() -> Tally {
        Tally {
            sorts: Vec::new(),
            calls: 0,
            areas: [0; NUMBERS],
            pages: [0; NUMBERS],
            elements: [0; NUMBERS],
            pages_said: [0; NUMBERS],
            elements_said: [0; NUMBERS],
            kinds: [[0; KINDS.len()]; TYPES.len()],
            things: Vec::new(),
        }
    }

    pub fn asked(&mut self, sort: &str) {
        count(&mut self.sorts, sort, 1);
    }

    /// How many questions were asked.
    pub fn questions(&self) -> usize {
        self.sorts.iter().map(|(_, number)| number).sum()
    }

    /// The number of the next call.
    pub fn next_call(&mut self) -> usize {
        self.calls += 1;
        self.calls
    }

    /// An answer that both give, of an element of that type.
    pub fn area(&mut self, answer: &Area, type_code: u64) {
        self.areas[answer.as_numbers().0 as usize] += 1;
        for kind in answer.taken()[0] {
            let at = KINDS.iter().position(|(number, _)| number == kind).expect("one of five");
            self.kinds[type_code as usize][at] += 1;
        }
    }

    /// A thing that has to come about at least once in a whole run.
    pub fn want(&mut self, thing: &str) {
        count(&mut self.things, thing, 0);
    }

    pub fn reached(&mut self, thing: &str) {
        count(&mut self.things, thing, 1);
    }

    /// The answers that both give, by number and times.
    pub fn area_answers(&self) -> impl Iterator<Item = (u32, usize)> + '_ {
        (0..).zip(self.areas)
    }

    pub fn page_answers(&self) -> impl Iterator<Item = (u32, usize)> + '_ {
        (0..).zip(self.pages)
    }

    pub fn element_answers(&self) -> impl Iterator<Item = (u32, usize)> + '_ {
        (0..).zip(self.elements)
    }

    pub fn page_said_answers(&self) -> impl Iterator<Item = (u32, usize)> + '_ {
        (0..).zip(self.pages_said)
    }

    pub fn element_said_answers(&self) -> impl Iterator<Item = (u32, usize)> + '_ {
        (0..).zip(self.elements_said)
    }

    pub fn report(&self) {
        println!("Rectangles, pages and elements, questions by sort");
        for (sort, number) in &self.sorts {
            println!("  {number:8}  {sort}");
        }
        println!("  {:8}  asked in all, in {} calls", self.questions(), self.calls);
        println!(
            "Answers: {:>7} {:>10} {:>10} {:>10} {:>13}",
            "cells", "page", "element", "page_said", "element_said"
        );
        for number in AREAS {
            let at = number as usize;
            let [areas, pages, elements] = [self.areas[at], self.pages[at], self.elements[at]];
            let said = format!("{:>10} {:>13}", self.pages_said[at], self.elements_said[at]);
            let meaning = if number == 0 { "accepted" } else { "refused" };
            println!("  {areas:>14} {pages:>10} {elements:>10} {said}  {meaning} {number}");
        }
        println!("Cells in rectangles, by type");
        for (type_name, kinds) in TYPES.iter().zip(self.kinds) {
            for ((_, kind), times) in KINDS.iter().zip(kinds) {
                println!("  {times:10}  {type_name}, {kind}");
            }
        }
        println!("Rectangles, pages and elements, by what they are about");
        for (thing, number) in &self.things {
            println!("  {number:8}  {thing}");
        }
    }

    /// What never came about, and what never may.
    pub fn missed(&self) -> Vec<String> {
        let mut missed = Vec::new();
        let functions = [
            ("cells", &AREAS[..], &self.areas),
            ("page", &PAGES, &self.pages),
            ("element", &ELEMENTS, &self.elements),
            ("page_said", &PAGES, &self.pages_said),
            ("element_said", &ELEMENTS, &self.elements_said),
        ];
        for (name, wanted, answers) in functions {
            for (number, times) in (0..).zip(answers) {
                if wanted.contains(&number) != (*times > 0) {
                    missed.push(format!("{name}: {number}, {times} times"));
                }
            }
        }
        for (type_code, kinds) in self.kinds.iter().enumerate() {
            for ((number, kind), times) in KINDS.iter().zip(kinds) {
                let never_may = type_code == usize::from(FLOAT) && [UNPACKED, 14].contains(number);
                if (*times == 0) != never_may {
                    missed.push(format!("{}, {kind}: {times} cells", TYPES[type_code]));
                }
            }
        }
        let never = self.things.iter().filter(|(_, number)| *number == 0);
        missed.extend(never.map(|(thing, _)| thing.clone()));
        missed
    }
}
