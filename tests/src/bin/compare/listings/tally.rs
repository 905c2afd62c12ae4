//! What was listed, what came out, and what has to come about at least once.

use crate::reads::tally::count;

pub struct Tally {
    /// Listings, by sort.
    sorts: Vec<(String, usize)>,
    /// What the texts say, and how often.
    texts: Vec<(String, usize)>,
    /// Things that have to come about, and how often they did.
    things: Vec<(String, usize)>,
    /// Calls, each with a buffer of its own.
    calls: usize,
}

impl Tally {
    pub fn new() -> Tally {
        let mut texts = vec![("listed".to_string(), 0), ("too long".to_string(), 0)];
        texts.extend((1..=9).map(|number| (format!("refused {number}"), 0)));
        Tally { sorts: Vec::new(), texts, things: Vec::new(), calls: 0 }
    }

    pub fn asked(&mut self, sort: &str, calls: usize) {
        count(&mut self.sorts, sort, 1);
        self.calls += calls;
    }

    /// A text that both give.
    pub fn answered(&mut self, text: &str) {
        let kind = match text.split_once(" at ") {
            _ if text == "too long\n" => "too long",
            Some((refused, _)) => refused,
            None => "listed",
        };
        count(&mut self.texts, kind, 1);
    }

    /// A thing that has to come about at least once in a whole run.
    pub fn want(&mut self, thing: &str) {
        count(&mut self.things, thing, 0);
    }

    pub fn reached(&mut self, thing: &str) {
        count(&mut self.things, thing, 1);
    }

    /// The texts that both give, by the number of the refusal that they say, or 0, and times.
    pub fn answers(&self) -> impl Iterator<Item = (u32, usize)> + '_ {
        let number = |text: &str| text.strip_prefix("refused ").and_then(|text| text.parse().ok());
        self.texts.iter().map(move |(text, times)| (number(text).unwrap_or(0), *times))
    }

    pub fn report(&self) {
        println!("Listings compared, by sort");
        for (sort, number) in &self.sorts {
            println!("  {number:8}  {sort}");
        }
        let total: usize = self.sorts.iter().map(|(_, number)| number).sum();
        println!("  {total:8}  in all, by {} calls", self.calls);
        println!("Texts of listings");
        for (text, number) in &self.texts {
            println!("  {number:8}  {text}");
        }
        println!("Listings, by what they are about");
        for (thing, number) in &self.things {
            println!("  {number:8}  {thing}");
        }
    }

    /// What never came about.
    pub fn missed(&self) -> Vec<String> {
        let never = self.texts.iter().chain(&self.things).filter(|(_, number)| *number == 0);
        never.map(|(thing, _)| thing.clone()).collect()
    }
}
