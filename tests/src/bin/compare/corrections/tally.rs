//! What was asked of corrections, what came out, and what has to come about at least once.

use gvrs_tests::second::check::Answer;
use gvrs_tests::second::correct::Call;

use crate::reads::tally::count;

/// One more than the greatest number of an answer.
const NUMBERS: usize = 16;

/// The functions, each with the answers that it has to give and no other.
const FUNCTIONS: [(&str, &[u32]); 7] = [
    ("gvrs_open_page", &[0, 1, 2, 3, 4, 5, 6, 7, 8, 9, 12, 13]),
    ("gvrs_store_tile", &[0, 4, 10, 12, 13, 15]),
    ("gvrs_remove_tile", &[0, 10, 12, 15]),
    ("gvrs_close_page", &[0, 4, 12, 13, 15]),
    ("gvrs_squeeze", &[0, 12, 15]),
    ("gvrs_check_plan", &[0, 12, 15]),
    ("gvrs_tight_plan", &[0, 12, 13, 15]),
];

pub struct Tally {
    /// Questions, by sort.
    sorts: Vec<(String, usize)>,
    /// Answers by function and number.
    answers: [[usize; NUMBERS]; FUNCTIONS.len()],
    /// Things that have to come about, and how often they did.
    things: Vec<(String, usize)>,
    pages_read_back: usize,
    cells_read_back: usize,
}

/// The number of a call's function.
fn function(call: &Call) -> usize {
    match call {
        Call::Open { .. } => 0,
        Call::Store { .. } => 1,
        Call::Remove { .. } => 2,
        Call::Close { .. } => 3,
        Call::Squeeze { .. } => 4,
    }
}

impl Tally {
    pub fn new() -> Tally {
        Tally {
            sorts: Vec::new(),
            answers: [[0; NUMBERS]; FUNCTIONS.len()],
            things: Vec::new(),
            pages_read_back: 0,
            cells_read_back: 0,
        }
    }

    /// The number of the question.
    pub fn asked(&mut self, sort: &str) -> usize {
        count(&mut self.sorts, sort, 1);
        self.questions()
    }

    fn questions(&self) -> usize {
        self.sorts.iter().map(|(_, number)| number).sum()
    }

    /// An answer that both give.
    pub fn answered(&mut self, call: &Call, (number, _): Answer) {
        self.answers[function(call)][number as usize] += 1;
    }

    /// The same of a function that is no call.
    pub fn told(&mut self, name: &str, number: u32) {
        let function = FUNCTIONS.iter().position(|(own, _)| *own == name);
        self.answers[function.expect("a function")][number as usize] += 1;
    }

    /// A thing that has to come about at least once in a whole run.
    pub fn want(&mut self, thing: &str) {
        count(&mut self.things, thing, 0);
    }

    pub fn reached(&mut self, thing: &str) {
        count(&mut self.things, thing, 1);
    }

    /// The things of a list that hold.
    pub fn reached_if(&mut self, things: &[(&str, bool)]) {
        for (thing, _) in things.iter().filter(|(_, holds)| *holds) {
            self.reached(thing);
        }
    }

    pub fn read_back(&mut self, cells: usize) {
        self.pages_read_back += 1;
        self.cells_read_back += cells;
    }

    /// Each function, with the answers that both give, by number and times.
    pub fn functions(&self) -> impl Iterator<Item = (&'static str, Vec<(u32, usize)>)> + '_ {
        let of = |answers: &[usize; NUMBERS]| (0..).zip(answers.iter().copied()).collect();
        FUNCTIONS.iter().zip(&self.answers).map(move |((name, _), answers)| (*name, of(answers)))
    }

    pub fn report(&self) {
        println!("Corrections, questions by sort");
        for (sort, number) in &self.sorts {
            println!("  {number:8}  {sort}");
        }
        println!("  {:8}  asked in all", self.questions());
        for ((name, known), answers) in FUNCTIONS.iter().zip(&self.answers) {
            println!("Answers of {name}");
            for number in *known {
                let meaning = if *number == 0 { "done" } else { "refused" };
                println!("  {:8}  {meaning} {number}", answers[*number as usize]);
            }
        }
        println!("Corrected pages read back");
        println!("  {:8}  pages", self.pages_read_back);
        println!("  {:8}  cells, each by every route", self.cells_read_back);
        println!("Corrections, by what they are about");
        for (thing, number) in &self.things {
            println!("  {number:8}  {thing}");
        }
    }

    /// What never came about, and what never may.
    pub fn missed(&self) -> Vec<String> {
        let mut missed = Vec::new();
        for ((name, known), answers) in FUNCTIONS.iter().zip(&self.answers) {
            for (number, times) in (0..).zip(answers) {
                if known.contains(&number) != (*times > 0) {
                    missed.push(format!("{name}: {number}, {times} times"));
                }
            }
        }
        let never = self.things.iter().filter(|(_, number)| *number == 0);
        missed.extend(never.map(|(thing, _)| thing.clone()));
        missed
    }
}
