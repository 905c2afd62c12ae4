//! What was asked of sheets, what came out, and what has to come about at least once.

use crate::reads::tally::count;

/// One more than the greatest number of an answer.
const NUMBERS: usize = 17;

/// The answers of a move in, and of a move out.
const IN: [u32; 7] = [0, 1, 2, 3, 4, 12, 13];
const OUT: [u32; 14] = [0, 1, 2, 3, 4, 5, 6, 7, 8, 9, 11, 12, 13, 14];

/// Which way.
#[derive(Clone, Copy)]
pub enum Way {
    In,
    Out,
}

pub struct Tally {
    /// Questions, by sort.
    sorts: Vec<(String, usize)>,
    /// Calls that differ in a buffer or an `out` too.
    calls: usize,
    /// Answers by number.
    moved_in: [usize; NUMBERS],
    moved_out: [usize; NUMBERS],
    /// Things that have to come about, and how often they did.
    things: Vec<(String, usize)>,
}

impl Tally {
    pub fn new() -> Tally {
        let none = [0; NUMBERS];
        Tally { sorts: Vec::new(), calls: 0, moved_in: none, moved_out: none, things: Vec::new() }
    }

    pub fn asked(&mut self, sort: &str) {
        count(&mut self.sorts, sort, 1);
    }

    /// The number of the next call.
    pub fn next_call(&mut self) -> usize {
        self.calls += 1;
        self.calls
    }

    /// An answer that both give.
    pub fn answered(&mut self, way: Way, number: u32) {
        match way {
            Way::In => self.moved_in[number as usize] += 1,
            Way::Out => self.moved_out[number as usize] += 1,
        }
    }

    /// A thing that has to come about at least once in a whole run.
    pub fn want(&mut self, thing: &str) {
        count(&mut self.things, thing, 0);
    }

    pub fn reached(&mut self, thing: &str) {
        count(&mut self.things, thing, 1);
    }

    /// The answers that both give, by number and times.
    pub fn answers(&self, way: Way) -> impl Iterator<Item = (u32, usize)> {
        let answers = match way {
            Way::In => self.moved_in,
            Way::Out => self.moved_out,
        };
        (0..).zip(answers)
    }

    pub fn report(&self) {
        println!("Score sheets, questions by sort");
        for (sort, number) in &self.sorts {
            println!("  {number:8}  {sort}");
        }
        println!("  {:8}  calls", self.calls);
        for (way, name, known) in ways() {
            println!("Answers of moves {name}");
            for (number, times) in self.answers(way).filter(|(number, _)| known.contains(number)) {
                let meaning = if number == 0 { "done" } else { "refused" };
                println!("  {times:8}  {meaning} {number}");
            }
        }
        println!("Score sheets, by what they are about");
        for (thing, number) in &self.things {
            println!("  {number:8}  {thing}");
        }
    }

    /// What never came about, and what never may.
    pub fn missed(&self) -> Vec<String> {
        let mut missed = Vec::new();
        for (way, name, known) in ways() {
            for (number, times) in self.answers(way) {
                if known.contains(&number) != (times > 0) {
                    missed.push(format!("{number} of moves {name}, {times} times"));
                }
            }
        }
        let never = self.things.iter().filter(|(_, number)| *number == 0);
        missed.extend(never.map(|(thing, _)| thing.clone()));
        missed
    }
}

fn ways() -> [(Way, &'static str, &'static [u32]); 2] {
    [(Way::In, "in", &IN), (Way::Out, "out", &OUT)]
}
