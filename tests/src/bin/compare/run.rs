//! One run: what was compared, what came out, what is at fault.

use std::fs;
use std::path::PathBuf;

use gvrs_tests::library;
use gvrs_tests::second::check::{check, Answer};

use crate::closing;
use crate::comparisons;
use crate::corrections;
use crate::deeds;
use crate::explanations;
use crate::face;
use crate::fronts;
use crate::lay_downs;
use crate::listings;
use crate::packed;
use crate::reads;
use crate::replays;
use crate::said;
use crate::sheets;
use crate::starts;

/// Faults printed in full and files kept; the rest is only counted.
const MOST_SHOWN: usize = 20;

/// How many files are made: all of them, or half of them where that is asked for, or a small part of
/// them for a run under valgrind.
#[derive(Clone, Copy, PartialEq)]
pub enum Size {
    Small,
    Half,
    Whole,
}

pub struct Run {
    /// A small part of the files.
    pub small: bool,
    size: Size,
    sorts: Vec<(&'static str, usize)>,
    /// How often each answer 0 to 9 came out of the second implementation.
    answers: [usize; 10],
    /// The same, where the second half was asked beside the check.
    pub rests: [usize; 10],
    aims: Vec<AimTally>,
    allowances: Vec<(&'static str, usize)>,
    pairs: Vec<PairTally>,
    pub reads: reads::tally::Tally,
    pub lay_downs: lay_downs::tally::Tally,
    pub listings: listings::tally::Tally,
    pub starts: starts::tally::Tally,
    pub packed: packed::tally::Tally,
    pub face: face::tally::Tally,
    pub deeds: deeds::tally::Tally,
    pub corrections: corrections::tally::Tally,
    pub comparisons: comparisons::tally::Tally,
    pub replays: replays::tally::Tally,
    pub sheets: sheets::tally::Tally,
    pub fronts: fronts::tally::Tally,
    pub said: said::tally::Tally,
    pub explanations: explanations::tally::Tally,
    /// Names asked about.
    pub names: usize,
    /// Texts asked about.
    pub texts: usize,
    /// Pairs of names compared.
    pub name_pairs: usize,
    /// Look-ups by name, at the number of the answer.
    pub look_ups: [usize; 34],
    faults: usize,
}

struct AimTally {
    stage: u32,
    sentence: &'static str,
    hit: usize,
}

/// Files damaged in two stages, and how many of them the earlier stage refused.
struct PairTally {
    stages: (u32, u32),
    tried: usize,
    earlier: usize,
}

impl Run {
    pub fn new(size: Size) -> Run {
        Run {
            small: size == Size::Small,
            size,
            sorts: Vec::new(),
            answers: [0; 10],
            rests: [0; 10],
            aims: Vec::new(),
            allowances: Vec::new(),
            pairs: Vec::new(),
            reads: reads::tally::Tally::new(),
            lay_downs: lay_downs::tally::Tally::new(),
            listings: listings::tally::Tally::new(),
            starts: starts::tally::Tally::new(),
            packed: packed::tally::Tally::new(),
            face: face::tally::Tally::new(),
            deeds: deeds::tally::Tally::new(),
            corrections: corrections::tally::Tally::new(),
            comparisons: comparisons::tally::Tally::new(),
            replays: replays::tally::Tally::new(),
            sheets: sheets::tally::Tally::new(),
            fronts: fronts::tally::Tally::new(),
            said: said::tally::Tally::new(),
            explanations: explanations::tally::Tally::new(),
            names: 0,
            texts: 0,
            name_pairs: 0,
            look_ups: [0; 34],
            faults: 0,
        }
    }

    /// `full` in a whole run, half of them in a half one, a few in a small one.
    pub fn times(&self, full: usize) -> usize {
        match self.size {
            Size::Small => full.div_ceil(100),
            Size::Half => full.div_ceil(2),
            Size::Whole => full,
        }
    }

    /// Asks both implementations. They must agree, on the check in two halves, and on the listing of
    /// some of the files and why some are refused too.
    pub fn compare(&mut self, sort: &'static str, file: &[u8]) -> Answer {
        // An allocation of exactly the file's length, so that valgrind sees a read behind it.
        let lent: Box<[u8]> = file.into();
        let from_library = library::check(&lent);
        let from_second = check(file);
        count(&mut self.sorts, sort);
        self.answers[from_second.0 as usize] += 1;
        if from_library != from_second {
            let text = format!("{sort}: library {from_library:?}, second {from_second:?}");
            self.fault(&text, file);
        }
        self.halves(sort, &lent, from_second);
        if self.files_compared().is_multiple_of(listings::ONE_IN) {
            self.listing(sort, file);
        }
        if self.files_compared() % explanations::ONE_IN == 1 {
            explanations::ask::ask(self, "files of the comparison of checks", file);
        }
        from_second
    }

    /// The second implementation's answers of checks, by number and times.
    pub fn answers(&self) -> impl Iterator<Item = (u32, usize)> + '_ {
        (0..).zip(self.answers.iter().copied())
    }

    fn files_compared(&self) -> usize {
        self.answers.iter().sum()
    }

    /// As `compare`, where the answer is known.
    pub fn expect(&mut self, sort: &'static str, what: &str, file: &[u8], expected: Answer) {
        let answer = self.compare(sort, file);
        if answer != expected {
            let text = format!("{sort}: {what}: expected {expected:?}, second {answer:?}");
            self.fault(&text, file);
        }
    }

    /// A file that a sentence allows.
    pub fn accept(&mut self, sentence: &'static str, file: &[u8]) {
        count(&mut self.allowances, sentence);
        self.expect("allowed", sentence, file, (0, 0));
    }

    /// A file damaged with that aim.
    pub fn aim(&mut self, stage: u32, sentence: &'static str, file: &[u8], place: u64) {
        self.expect("damaged", sentence, file, (stage, place));
        if check(file) == (stage, place) && library::check(file) == (stage, place) {
            self.aim_tally(stage, sentence).hit += 1;
        }
    }

    /// Notes an aim, so that it is missed if nothing ever hits it.
    pub fn aim_at(&mut self, stage: u32, sentence: &'static str) {
        self.aim_tally(stage, sentence);
    }

    fn aim_tally(&mut self, stage: u32, sentence: &'static str) -> &mut AimTally {
        let same = |tally: &AimTally| tally.stage == stage && tally.sentence == sentence;
        let at = self.aims.iter().position(same).unwrap_or_else(|| {
            self.aims.push(AimTally { stage, sentence, hit: 0 });
            self.aims.len() - 1
        });
        &mut self.aims[at]
    }

    /// A file damaged in two stages.
    pub fn pair(&mut self, stages: (u32, u32), earlier_refused: bool) {
        let at = self.pairs.iter().position(|tally| tally.stages == stages).unwrap_or_else(|| {
            self.pairs.push(PairTally { stages, tried: 0, earlier: 0 });
            self.pairs.len() - 1
        });
        self.pairs[at].tried += 1;
        self.pairs[at].earlier += usize::from(earlier_refused);
    }

    /// Prints what is wrong and keeps the file.
    pub fn fault(&mut self, text: &str, file: &[u8]) {
        self.faults += 1;
        if self.faults > MOST_SHOWN {
            return;
        }
        println!("FAULT {}: {text}", self.faults);
        match self.keep(file) {
            Ok(path) => println!("  file kept as {}", path.display()),
            Err(error) => println!("  file not kept: {error}"),
        }
    }

    fn keep(&self, file: &[u8]) -> std::io::Result<PathBuf> {
        let folder = PathBuf::from(concat!(env!("CARGO_MANIFEST_DIR"), "/target/faults"));
        fs::create_dir_all(&folder)?;
        let path = folder.join(format!("{}.gvrs", self.faults));
        fs::write(&path, file)?;
        Ok(path)
    }

    /// Prints the tables. True if nothing is at fault.
    pub fn report(&mut self) -> bool {
        self.report_files();
        println!("Allowed and accepted, by sentence");
        for (sentence, number) in &self.allowances {
            println!("  {number:8}  {sentence}");
        }
        println!("Aims hit: stage, times, sentence");
        self.aims.sort_by_key(|aim| aim.stage);
        for aim in &self.aims {
            println!("  {}  {:6}  {}", aim.stage, aim.hit, aim.sentence);
        }
        self.report_pairs();
        self.reads.report();
        self.lay_downs.report();
        self.listings.report();
        self.starts.report();
        self.packed.report();
        self.face.report();
        self.deeds.report();
        self.corrections.report();
        self.comparisons.report();
        self.replays.report();
        self.sheets.report();
        self.fronts.report();
        self.said.report();
        self.explanations.report();
        closing::report(&self.functions());
        if !self.small {
            self.missed();
        }
        println!("Faults: {}", self.faults);
        self.faults == 0
    }

    fn report_files(&self) {
        println!("Files compared, by sort");
        for (sort, number) in &self.sorts {
            println!("  {number:8}  {sort}");
        }
        println!("  {:8}  together", self.files_compared());
        println!("Answers");
        for (number, times) in self.answers.iter().enumerate() {
            let meaning = if number == 0 { "accepted" } else { "refused" };
            println!("  {times:8}  {meaning} {number}");
        }
    }

    fn report_pairs(&self) {
        let tried: usize = self.pairs.iter().map(|tally| tally.tried).sum();
        let earlier: usize = self.pairs.iter().map(|tally| tally.earlier).sum();
        let pairs = self.pairs.len();
        println!("Damaged in two stages: {tried} files, {pairs} pairs of stages");
        println!("  {earlier:8}  refused by the earlier stage");
        let undone = tried - earlier;
        println!("  {undone:8}  where one damage undid the other");
    }

    /// What was aimed at and never came out.
    fn missed(&mut self) {
        for aim in self.aims.iter().filter(|aim| aim.hit == 0) {
            println!("FAULT: never hit: stage {}, {}", aim.stage, aim.sentence);
            self.faults += 1;
        }
        for pair in self.pairs.iter().filter(|pair| pair.earlier == 0) {
            println!("FAULT: the earlier stage never refused: {:?}", pair.stages);
            self.faults += 1;
        }
        if self.pairs.len() != 36 {
            println!("FAULT: {} pairs of stages of 36", self.pairs.len());
            self.faults += 1;
        }
        for thing in self.reads.missed() {
            println!("FAULT: reads: never or wrongly reached: {thing}");
            self.faults += 1;
        }
        for thing in self.lay_downs.missed() {
            println!("FAULT: lay-downs: never reached: {thing}");
            self.faults += 1;
        }
        for thing in self.listings.missed() {
            println!("FAULT: listings: never reached: {thing}");
            self.faults += 1;
        }
        for thing in self.starts.missed() {
            println!("FAULT: first halves: never reached: {thing}");
            self.faults += 1;
        }
        for thing in self.packed.missed() {
            println!("FAULT: packed contents: never or wrongly reached: {thing}");
            self.faults += 1;
        }
        for thing in self.face.missed() {
            println!("FAULT: rectangles, pages and elements: never or wrongly reached: {thing}");
            self.faults += 1;
        }
        for thing in self.deeds.missed() {
            println!("FAULT: deeds: never or wrongly reached: {thing}");
            self.faults += 1;
        }
        for thing in self.corrections.missed() {
            println!("FAULT: corrections: never or wrongly reached: {thing}");
            self.faults += 1;
        }
        for thing in self.comparisons.missed() {
            println!("FAULT: comparisons: never or wrongly reached: {thing}");
            self.faults += 1;
        }
        for thing in self.replays.missed() {
            println!("FAULT: replays: never or wrongly reached: {thing}");
            self.faults += 1;
        }
        for thing in self.sheets.missed() {
            println!("FAULT: score sheets: never or wrongly reached: {thing}");
            self.faults += 1;
        }
        for thing in self.fronts.missed() {
            println!("FAULT: fronts: never or wrongly reached: {thing}");
            self.faults += 1;
        }
        for thing in self.said.missed() {
            println!("FAULT: lists: never or wrongly reached: {thing}");
            self.faults += 1;
        }
        for thing in self.explanations.missed() {
            println!("FAULT: why refused: never reached: {thing}");
            self.faults += 1;
        }
        for number in self.look_ups_missed() {
            println!("FAULT: look-ups: never answered {number}");
            self.faults += 1;
        }
        for thing in closing::missed(&self.functions()) {
            println!("FAULT: {thing}");
            self.faults += 1;
        }
    }
}

fn count(tally: &mut Vec<(&'static str, usize)>, name: &'static str) {
    match tally.iter_mut().find(|(known, _)| *known == name) {
        Some((_, number)) => *number += 1,
        None => tally.push((name, 1)),
    }
}
