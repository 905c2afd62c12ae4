//! What was asked of replays, what came out, and what has to come about at least once.

use crate::reads::tally::count;

/// One more than the greatest number of an answer.
const NUMBERS: usize = 16;

/// The answers that a replay has to give, and no other.
const ANSWERS: [u32; 5] = [0, 4, 12, 13, 15];

pub struct Tally {
    /// Questions, by sort.
    sorts: Vec<(String, usize)>,
    /// Answers by number.
    answers: [usize; NUMBERS],
    /// Entries done.
    entries: u64,
    /// Things that have to come about, and how often they did.
    things: Vec<(String, usize)>,
}

impl Tally {
    pub fn new() -> Tally {
        Tally { sorts: Vec::new(), answers: [0; NUMBERS], entries: 0, things: Vec::new() }
    }

    /// The number of the question.
    pub fn asked(&mut self, sort: &str) -> usize {
        count(&mut self.sorts, sort, 1);
        self.questions()
    }

    fn questions(&self) -> usize {
        self.sorts.iter().map(|(_, number)| number).sum()
    }

    /// An answer that both give, with the entries done.
    pub fn answered(&mut self, number: u32, entries: u64) {
        self.answers[number as usize] += 1;
        self.entries += entries;
    }

    /// A thing that has to come about at least once in a whole run.
    pub fn want(&mut self, thing: &str) {
        count(&mut self.things, thing, 0);
    }

    pub fn reached(&mut self, thing: &str) {
        count(&mut self.things, thing, 1);
    }

    pub fn reached_if(&mut self, things: &[(&str, bool)]) {
        for (thing, _) in things.iter().filter(|(_, holds)| *holds) {
            self.reached(thing);
        }
    }

    /// The answers that both give, by number and times.
    pub fn answers(&self) -> impl Iterator<Item = (u32, usize)> + '_ {
        (0..).zip(self.answers.iter().copied())
    }

    pub fn report(&self) {
        println!("Replays, questions by sort");
        for (sort, number) in &self.sorts {
            println!("  {number:8}  {sort}");
        }
        println!("  {:8}  entries done", self.entries);
        println!("Answers of replays");
        for number in ANSWERS {
            let meaning = if number == 0 { "done" } else { "refused" };
            println!("  {:8}  {meaning} {number}", self.answers[number as usize]);
        }
        println!("Replays, by what they are about");
        for (thing, number) in &self.things {
            println!("  {number:8}  {thing}");
        }
    }

    /// What never came about, and what never may.
    pub fn missed(&self) -> Vec<String> {
        let mut missed = Vec::new();
        for (number, times) in self.answers() {
            if ANSWERS.contains(&number) != (times > 0) {
                missed.push(format!("{number}, {times} times"));
            }
        }
        let never = self.things.iter().filter(|(_, number)| *number == 0);
        missed.extend(never.map(|(thing, _)| thing.clone()));
        missed
    }
}
