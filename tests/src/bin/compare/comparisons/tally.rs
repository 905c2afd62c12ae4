//! What was asked of pairs of pages, what came out, and what has to come about at least once.

use gvrs_tests::second::compare::Comparison;

use crate::reads::tally::count;

/// One more than the greatest number of an answer.
const NUMBERS: usize = 15;

/// Every answer.
const ANSWERS: [(u32, &str); 13] = [
    (0, "compared"),
    (1, "refused 1"),
    (2, "refused 2"),
    (3, "refused 3"),
    (4, "refused 4"),
    (5, "refused 5"),
    (6, "refused 6"),
    (7, "refused 7"),
    (8, "refused 8"),
    (9, "refused 9"),
    (11, "refused 11"),
    (12, "refused 12"),
    (14, "refused 14"),
];

pub struct Tally {
    /// Questions, by sort.
    sorts: Vec<(String, usize)>,
    /// Calls that differ in a memory, a list or an `out` too.
    calls: usize,
    /// Answers by number.
    answers: [usize; NUMBERS],
    /// Entries that had to be listed, in all calls.
    listed: usize,
    /// Things that have to come about, and how often they did.
    things: Vec<(String, usize)>,
}

impl Tally {
    pub fn new() -> Tally {
        Tally { sorts: Vec::new(), calls: 0, answers: [0; NUMBERS], listed: 0, things: Vec::new() }
    }

    /// The number of the question.
    pub fn asked(&mut self, sort: &str) -> usize {
        count(&mut self.sorts, sort, 1);
        self.questions()
    }

    /// How many questions were asked.
    fn questions(&self) -> usize {
        self.sorts.iter().map(|(_, number)| number).sum()
    }

    /// The number of the next call, which has to list so many entries.
    pub fn next_call(&mut self, entries: usize) -> usize {
        self.listed += entries;
        self.calls += 1;
        self.calls
    }

    /// An answer that both give.
    pub fn answered(&mut self, answer: &Comparison) {
        self.answers[answer.as_numbers().0 as usize] += 1;
    }

    /// A thing that has to come about at least once in a whole run.
    pub fn want(&mut self, thing: &str) {
        count(&mut self.things, thing, 0);
    }

    pub fn reached(&mut self, thing: &str) {
        count(&mut self.things, thing, 1);
    }

    /// The things of a list that hold.
    pub fn reached_if(&mut self, things: &[(&str, bool)]) {
        for (thing, _) in things.iter().filter(|(_, holds)| *holds) {
            self.reached(thing);
        }
    }

    /// The answers that both give, by number and times.
    pub fn answers(&self) -> impl Iterator<Item = (u32, usize)> + '_ {
        (0..).zip(self.answers)
    }

    pub fn report(&self) {
        println!("Pages compared, questions by sort");
        for (sort, number) in &self.sorts {
            println!("  {number:8}  {sort}");
        }
        let (questions, calls) = (self.questions(), self.calls);
        println!("  {questions:8}  asked in all, in {calls} calls, {} entries", self.listed);
        println!("Answers");
        for (number, name) in ANSWERS {
            println!("  {:8}  {name}", self.answers[number as usize]);
        }
        println!("Pages compared, by what they are about");
        for (thing, number) in &self.things {
            println!("  {number:8}  {thing}");
        }
    }

    /// What never came about, and what never may.
    pub fn missed(&self) -> Vec<String> {
        let mut missed = Vec::new();
        for (number, times) in self.answers() {
            let may = ANSWERS.iter().any(|(known, _)| *known == number);
            if may != (times > 0) {
                missed.push(format!("{number}, {times} times"));
            }
        }
        let never = self.things.iter().filter(|(_, number)| *number == 0);
        missed.extend(never.map(|(thing, _)| thing.clone()));
        missed
    }
}
