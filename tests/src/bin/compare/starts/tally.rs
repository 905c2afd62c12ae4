//! What was asked of the first half, what came out, and what has to come about at least once.

use gvrs_tests::second::start::Start;

use crate::reads::tally::count;

/// The answers that the first half has.
const ANSWERS: [u32; 8] = [0, 1, 2, 3, 4, 5, 12, 16];
/// One more than the greatest of them.
const NUMBERS: usize = 17;

/// What can stand behind first bytes.
pub const RESTS: [&str; 3] = ["zeros", "junk", "the true rest"];

/// What is needed where the answer is 16.
const NEEDS: [&str; 5] = [
    "needs all of a file of less than 16",
    "needs 16",
    "needs all of a file of 17 to 23",
    "needs 24",
    "needs the header",
];

fn need(needed: u64) -> usize {
    match needed {
        ..16 => 0,
        16 => 1,
        17..24 => 2,
        24 => 3,
        25.. => 4,
    }
}

pub struct Tally {
    /// Questions, by sort.
    sorts: Vec<(String, usize)>,
    /// Answers by number.
    answers: [usize; NUMBERS],
    /// Answers of 16 by what is needed.
    needs: [usize; NEEDS.len()],
    /// Files that begin so, by the answer of stages 1 to 5 and by what stands behind.
    files: [[usize; RESTS.len()]; 6],
    /// Things that have to come about, and how often they did.
    things: Vec<(String, usize)>,
}

impl Tally {
    pub fn new() -> Tally {
        Tally {
            sorts: Vec::new(),
            answers: [0; NUMBERS],
            needs: [0; NEEDS.len()],
            files: [[0; RESTS.len()]; 6],
            things: Vec::new(),
        }
    }

    pub fn asked(&mut self, sort: &str, answer: Start) {
        count(&mut self.sorts, sort, 1);
        self.answers[answer.number as usize] += 1;
        if answer.number == 16 {
            self.needs[need(answer.needed)] += 1;
        }
    }

    /// How many questions were asked.
    pub fn questions(&self) -> usize {
        self.answers.iter().sum()
    }

    /// A file that begins so and is answered so.
    pub fn begun(&mut self, number: u32, rest: usize) {
        self.files[number as usize][rest] += 1;
    }

    /// A thing that has to come about at least once in a whole run.
    pub fn want(&mut self, thing: &str) {
        count(&mut self.things, thing, 0);
    }

    pub fn reached(&mut self, thing: &str) {
        count(&mut self.things, thing, 1);
    }

    /// The second implementation's answers, by number and times.
    pub fn answers(&self) -> impl Iterator<Item = (u32, usize)> + '_ {
        (0..).zip(self.answers.iter().copied())
    }

    pub fn report(&self) {
        println!("First halves compared, by sort");
        for (sort, number) in &self.sorts {
            println!("  {number:8}  {sort}");
        }
        println!("  {:8}  together", self.questions());
        println!("Answers of first halves");
        for number in ANSWERS {
            let meaning = if number == 0 { "accepted" } else { "refused" };
            println!("  {:8}  {meaning} {number}", self.answers[number as usize]);
        }
        for (what, times) in NEEDS.iter().zip(self.needs) {
            println!("  {times:8}  {what}");
        }
        println!("Files that begin so, by answer: {}", RESTS.join(", "));
        for (number, [zeros, junk, own]) in self.files.iter().enumerate() {
            println!("  {number}  {zeros:8}  {junk:8}  {own:8}");
        }
        println!("First halves, by what they are about");
        for (thing, number) in &self.things {
            println!("  {number:8}  {thing}");
        }
    }

    /// What never came about.
    pub fn missed(&self) -> Vec<String> {
        let mut missed = Vec::new();
        for number in ANSWERS.iter().filter(|number| self.answers[**number as usize] == 0) {
            missed.push(format!("answer {number}"));
        }
        for (what, _) in NEEDS.iter().zip(self.needs).filter(|(_, times)| *times == 0) {
            missed.push(what.to_string());
        }
        for (number, files) in self.files.iter().enumerate() {
            for (rest, _) in RESTS.iter().zip(files).filter(|(_, times)| **times == 0) {
                missed.push(format!("a file that begins so: answer {number}, {rest}"));
            }
        }
        let never = self.things.iter().filter(|(_, number)| *number == 0);
        missed.extend(never.map(|(thing, _)| thing.clone()));
        missed
    }
}
