//! What was asked of lists and of metadata records by name and ID, what came out, and what has to come
//! about at least once.

use gvrs_tests::second::elements::{ABSENT, FOUND};
use gvrs_tests::second::says::{List, LISTS};

use crate::reads::tally::count;

/// One more than the greatest number of an answer.
const NUMBERS: usize = ABSENT as usize + 1;

/// What a list answers, and a look-up.
const LISTED: [u32; 10] = [0, 1, 2, 3, 4, 5, 6, 7, 8, 9];
const LOOKED_UP: [u32; 11] = [1, 2, 3, 4, 5, 6, 7, 8, 9, FOUND, ABSENT];

pub struct Tally {
    /// Questions, by sort.
    sorts: Vec<(String, usize)>,
    /// Calls that differ in a room or an `out` too.
    calls: usize,
    /// How many lists were asked for.
    lists: usize,
    /// Answers by number, of each list and of look-ups.
    listed: [[usize; NUMBERS]; LISTS.len()],
    look_ups: [usize; NUMBERS],
    /// Things that have to come about, and how often they did.
    things: Vec<(String, usize)>,
}

impl Tally {
    pub fn new() -> Tally {
        Tally {
            sorts: Vec::new(),
            calls: 0,
            lists: 0,
            listed: [[0; NUMBERS]; LISTS.len()],
            look_ups: [0; NUMBERS],
            things: Vec::new(),
        }
    }

    pub fn asked(&mut self, sort: &str) {
        count(&mut self.sorts, sort, 1);
    }

    /// The number of the next call.
    pub fn next_call(&mut self) -> usize {
        self.calls += 1;
        self.calls
    }

    /// The number of the next list.
    pub fn turn(&mut self) -> usize {
        self.lists += 1;
        self.lists
    }

    /// An answer that both give.
    pub fn answered(&mut self, list: List, number: u32) {
        self.listed[list as usize][number as usize] += 1;
    }

    /// The same of a look-up.
    pub fn looked_up(&mut self, number: u32) {
        self.look_ups[number as usize] += 1;
    }

    /// A thing that has to come about at least once in a whole run.
    pub fn want(&mut self, thing: &str) {
        count(&mut self.things, thing, 0);
    }

    pub fn reached(&mut self, thing: &str) {
        count(&mut self.things, thing, 1);
    }

    /// The answers that both give, by number and times.
    pub fn answers(&self, list: List) -> impl Iterator<Item = (u32, usize)> {
        (0..).zip(self.listed[list as usize])
    }

    pub fn found(&self) -> impl Iterator<Item = (u32, usize)> {
        (0..).zip(self.look_ups)
    }

    pub fn report(&self) {
        println!("Lists and metadata records, questions by sort");
        for (sort, number) in &self.sorts {
            println!("  {number:8}  {sort}");
        }
        println!("  {:8}  calls", self.calls);
        println!("Answers: {:>7} {:>10} {:>10} {:>10}", "tiles", "metadata", "methods", "by name");
        for number in 0..NUMBERS {
            let [tiles, metadata, methods] = self.listed.map(|answers| answers[number]);
            let look_ups = self.look_ups[number];
            if tiles + metadata + methods + look_ups > 0 {
                println!("  {tiles:>14} {metadata:>10} {methods:>10} {look_ups:>10}  {number}");
            }
        }
        println!("Lists and metadata records, by what they are about");
        for (thing, number) in &self.things {
            println!("  {number:8}  {thing}");
        }
    }

    /// What never came about, and what never may.
    pub fn missed(&self) -> Vec<String> {
        let mut missed = Vec::new();
        for list in LISTS {
            for (number, times) in self.answers(list) {
                if LISTED.contains(&number) != (times > 0) {
                    missed.push(format!("{list:?}: {number}, {times} times"));
                }
            }
        }
        for (number, times) in self.found() {
            if LOOKED_UP.contains(&number) != (times > 0) {
                missed.push(format!("by name and ID: {number}, {times} times"));
            }
        }
        let never = self.things.iter().filter(|(_, number)| *number == 0);
        missed.extend(never.map(|(thing, _)| thing.clone()));
        missed
    }
}
