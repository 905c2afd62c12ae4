//! What was laid down, what came out, and what was read back of it.

use gvrs_tests::second::check::Answer;

use crate::reads::tally::count;

/// The answers of a lay-down.
const ANSWERS: [u32; 7] = [0, 1, 2, 3, 4, 12, 13];

pub struct Tally {
    /// Lay-downs, by sort.
    sorts: Vec<(String, usize)>,
    /// How often each answer came out, as in `ANSWERS`.
    answers: [usize; ANSWERS.len()],
    /// Things that have to come about, and how often they did.
    things: Vec<(String, usize)>,
    pairs: Vec<PairTally>,
    pages_read_back: usize,
    cells_read_back: usize,
    contents_read_back: usize,
}

/// Lay-downs with two faults, and how many of them were refused for the earlier one.
struct PairTally {
    kinds: (&'static str, &'static str),
    tried: usize,
    earlier: usize,
}

impl Tally {
    pub fn new() -> Tally {
        Tally {
            sorts: Vec::new(),
            answers: [0; ANSWERS.len()],
            things: Vec::new(),
            pairs: Vec::new(),
            pages_read_back: 0,
            cells_read_back: 0,
            contents_read_back: 0,
        }
    }

    pub fn asked(&mut self, sort: &str) {
        count(&mut self.sorts, sort, 1);
    }

    /// An answer that both give.
    pub fn answered(&mut self, (number, _): Answer) {
        let at = ANSWERS.iter().position(|known| *known == number).expect("an answer of lay-downs");
        self.answers[at] += 1;
    }

    /// A thing that has to come about at least once in a whole run.
    pub fn want(&mut self, thing: &str) {
        count(&mut self.things, thing, 0);
    }

    pub fn reached(&mut self, thing: &str) {
        count(&mut self.things, thing, 1);
    }

    pub fn read_back(&mut self, cells: usize, contents: usize) {
        self.pages_read_back += 1;
        self.cells_read_back += cells;
        self.contents_read_back += contents;
    }

    /// Notes a pair, so that it is missed if the earlier fault never decides.
    pub fn want_pair(&mut self, kinds: (&'static str, &'static str)) {
        self.pair_tally(kinds);
    }

    pub fn pair(&mut self, kinds: (&'static str, &'static str), earlier_refused: bool) {
        let tally = self.pair_tally(kinds);
        tally.tried += 1;
        tally.earlier += usize::from(earlier_refused);
    }

    fn pair_tally(&mut self, kinds: (&'static str, &'static str)) -> &mut PairTally {
        let at = self.pairs.iter().position(|tally| tally.kinds == kinds).unwrap_or_else(|| {
            self.pairs.push(PairTally { kinds, tried: 0, earlier: 0 });
            self.pairs.len() - 1
        });
        &mut self.pairs[at]
    }

    /// The answers that both give, by number and times.
    pub fn answers(&self) -> impl Iterator<Item = (u32, usize)> + '_ {
        ANSWERS.into_iter().zip(self.answers.iter().copied())
    }

    pub fn report(&self) {
        println!("Lay-downs compared, by sort");
        for (sort, number) in &self.sorts {
            println!("  {number:8}  {sort}");
        }
        let total: usize = self.answers.iter().sum();
        println!("  {total:8}  together");
        println!("Answers of lay-downs");
        for (number, times) in ANSWERS.iter().zip(&self.answers) {
            let meaning = if *number == 0 { "done" } else { "refused" };
            println!("  {times:8}  {meaning} {number}");
        }
        self.report_pairs();
        println!("Laid-down pages read back");
        println!("  {:8}  pages", self.pages_read_back);
        println!("  {:8}  cells, each by every route", self.cells_read_back);
        println!("  {:8}  contents", self.contents_read_back);
        println!("Lay-downs, by what they are about");
        for (thing, number) in &self.things {
            println!("  {number:8}  {thing}");
        }
    }

    fn report_pairs(&self) {
        let tried: usize = self.pairs.iter().map(|tally| tally.tried).sum();
        let earlier: usize = self.pairs.iter().map(|tally| tally.earlier).sum();
        println!("Two faults at once: {tried} lay-downs, {} pairs of faults", self.pairs.len());
        println!("  {earlier:8}  refused for the earlier fault");
        println!("  {:8}  where one damage of the front undid the other", tried - earlier);
    }

    /// What never came about.
    pub fn missed(&self) -> Vec<String> {
        let mut missed = Vec::new();
        for (number, _) in ANSWERS.iter().zip(&self.answers).filter(|(_, times)| **times == 0) {
            missed.push(format!("answer {number}"));
        }
        for pair in self.pairs.iter().filter(|pair| pair.earlier == 0) {
            missed.push(format!("refused for the earlier of {:?}", pair.kinds));
        }
        let never = self.things.iter().filter(|(_, number)| *number == 0);
        missed.extend(never.map(|(thing, _)| thing.clone()));
        missed
    }
}
