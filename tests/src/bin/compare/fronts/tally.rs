//! What was asked of fronts, what came out, and what has to come about at least once.

use crate::reads::tally::count;

/// The answers, and one more than the greatest of them.
const KNOWN: [u32; 5] = [0, 3, 4, 12, 13];
const NUMBERS: usize = 14;

pub struct Tally {
    /// Questions, by sort.
    sorts: Vec<(String, usize)>,
    /// Calls that differ in a buffer or an `out` too.
    calls: usize,
    answers: [usize; NUMBERS],
    /// Things that have to come about, and how often they did.
    things: Vec<(String, usize)>,
}

impl Tally {
    pub fn new() -> Tally {
        Tally { sorts: Vec::new(), calls: 0, answers: [0; NUMBERS], things: Vec::new() }
    }

    pub fn asked(&mut self, sort: &str) {
        count(&mut self.sorts, sort, 1);
    }

    /// The number of the next call.
    pub fn next_call(&mut self) -> usize {
        self.calls += 1;
        self.calls
    }

    /// An answer that both give.
    pub fn answered(&mut self, number: u32) {
        self.answers[number as usize] += 1;
    }

    /// A thing that has to come about at least once in a whole run.
    pub fn want(&mut self, thing: &str) {
        count(&mut self.things, thing, 0);
    }

    pub fn reached(&mut self, thing: &str) {
        count(&mut self.things, thing, 1);
    }

    /// The answers that both give, by number and times.
    pub fn answers(&self) -> impl Iterator<Item = (u32, usize)> + '_ {
        (0..).zip(self.answers)
    }

    pub fn report(&self) {
        println!("Fronts, questions by sort");
        for (sort, number) in &self.sorts {
            println!("  {number:8}  {sort}");
        }
        println!("  {:8}  calls", self.calls);
        println!("Answers of fronts");
        for (number, times) in self.answers().filter(|(number, _)| KNOWN.contains(number)) {
            let meaning = if number == 0 { "made" } else { "refused" };
            println!("  {times:8}  {meaning} {number}");
        }
        println!("Fronts, by what they are about");
        for (thing, number) in &self.things {
            println!("  {number:8}  {thing}");
        }
    }

    /// What never came about, and what never may.
    pub fn missed(&self) -> Vec<String> {
        let wrong = |(number, times): &(u32, usize)| KNOWN.contains(number) != (*times > 0);
        let answers = self.answers().filter(wrong);
        let mut missed: Vec<String> =
            answers.map(|(number, times)| format!("{number} of fronts, {times} times")).collect();
        let never = self.things.iter().filter(|(_, number)| *number == 0);
        missed.extend(never.map(|(thing, _)| thing.clone()));
        missed
    }
}
