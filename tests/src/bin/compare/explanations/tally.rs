//! What was asked about refused files, what came out, and what has to come about at least once.

use std::collections::BTreeSet;

use gvrs_tests::second::explain::Explained;

use crate::reads::tally::count;

/// One more than the greatest rule.
const RULES: usize = 76;

/// Two rules that are not broken by two fields. The first five of these pairs are broken by one
/// number, which stands among the pages with one field set; the others cannot be broken together.
const APART: [(u64, u64); 10] =
    [(5, 6), (5, 7), (6, 7), (62, 63), (71, 72), (1, 27), (14, 15), (52, 56), (70, 71), (70, 72)];

pub struct Tally {
    /// Questions, by sort.
    sorts: Vec<(String, usize)>,
    /// Answers 0 to 9.
    answers: [usize; 10],
    /// Rules named, at their numbers; 0 of files that are accepted.
    rules: [usize; RULES],
    /// Things that have to come about, and how often they did.
    things: Vec<(String, usize)>,
    /// Of two rules broken at once, the earlier first: whether it was answered as it should be.
    pairs: BTreeSet<(u64, u64)>,
}

impl Tally {
    pub fn new() -> Tally {
        Tally {
            sorts: Vec::new(),
            answers: [0; 10],
            rules: [0; RULES],
            things: Vec::new(),
            pairs: BTreeSet::new(),
        }
    }

    /// An answer of the second implementation.
    pub fn answered(&mut self, sort: &str, explained: &Explained) {
        count(&mut self.sorts, sort, 1);
        self.answers[explained.answer.0 as usize] += 1;
        self.rules[explained.fault.rule as usize] += 1;
    }

    pub fn want_every_rule(&mut self) {
        for rule in 1..RULES {
            count(&mut self.things, &broken_alone(rule as u64), 0);
        }
    }

    /// A thing that has to come about at least once in a whole run.
    pub fn want(&mut self, thing: &str) {
        count(&mut self.things, thing, 0);
    }

    /// A page that breaks the rule alone was answered as it should be.
    pub fn alone(&mut self, rule: u64) {
        count(&mut self.things, &broken_alone(rule), 1);
    }

    /// A page that breaks these two was answered as it should be.
    pub fn pair(&mut self, earlier: u64, later: u64) {
        self.pairs.insert((earlier.min(later), earlier.max(later)));
    }

    pub fn reached(&mut self, thing: &str) {
        count(&mut self.things, thing, 1);
    }

    pub fn answers(&self) -> impl Iterator<Item = (u32, usize)> + '_ {
        (0..).zip(self.answers.iter().copied())
    }

    pub fn report(&self) {
        println!("Why refused: files, by sort");
        for (sort, number) in &self.sorts {
            println!("  {number:8}  {sort}");
        }
        let named = self.rules[1..].iter().filter(|times| **times > 0).count();
        println!("  {named:8}  rules named");
        let pairs = pairs_of_rules().filter(|pair| self.pairs.contains(pair)).count();
        println!("  {pairs:8}  pairs of rules broken at once, the earlier named");
        println!("Why refused: things");
        for (thing, number) in &self.things {
            println!("  {number:8}  {thing}");
        }
    }

    /// What never came about.
    pub fn missed(&self) -> Vec<String> {
        let never = |(_, number): &&(String, usize)| *number == 0;
        let mut missed: Vec<String> =
            self.things.iter().filter(never).map(|(thing, _)| thing.clone()).collect();
        let never = |pair: &(u64, u64)| !self.pairs.contains(pair) && !APART.contains(pair);
        let of_two = pairs_of_rules().filter(never);
        missed.extend(of_two.map(|(one, other)| format!("rules {one} and {other} broken")));
        missed
    }
}

fn pairs_of_rules() -> impl Iterator<Item = (u64, u64)> {
    (1..RULES as u64).flat_map(|one| (one + 1..RULES as u64).map(move |other| (one, other)))
}

fn broken_alone(rule: u64) -> String {
    format!("rule {rule} broken alone")
}
