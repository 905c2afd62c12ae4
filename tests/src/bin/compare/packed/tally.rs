//! What was asked of packed contents and of M32 codes, what came out, and what has to come about at
//! least once.

use gvrs_tests::library::{DIRECTORY, WALK, WALK_WITHOUT_STAGE_9};
use gvrs_tests::page::{INTEGER, INTEGER_CODED, SHORT};
use gvrs_tests::second::cells::{Cell, Cells, FILL, STORED, UNPACKED};

use crate::reads::tally::count;

const ROUTES: [&str; 4] = ["directory", "walk", "without 9", "other number"];
/// What a read with a compressor can answer.
const ANSWERS: [u32; 15] = [1, 2, 3, 4, 5, 6, 7, 8, 9, 10, 11, 14, STORED, FILL, UNPACKED];
/// One more than the greatest of them.
const NUMBERS: usize = UNPACKED as usize + 1;

const TYPES: [(u8, &str); 3] =
    [(INTEGER, "Integer"), (INTEGER_CODED, "integer-coded"), (SHORT, "Short")];
const PREDICTORS: [&str; 3] = ["differencing", "linear", "triangle"];

pub struct Tally {
    /// Questions, by sort.
    sorts: Vec<(String, usize)>,
    /// Answers of cells by number, each by route.
    cells: [[usize; 4]; NUMBERS],
    /// Answers of `gvrs_unpack` by number.
    unpacks: [usize; NUMBERS],
    /// Contents unpacked as they should be, by predictor and by type.
    contents: [[usize; 3]; 3],
    pub written: usize,
    pub read: usize,
    /// Things that have to come about, and how often they did.
    things: Vec<(String, usize)>,
}

/// The column of a route number: all others are one.
fn column(route: u32) -> usize {
    match route {
        DIRECTORY => 0,
        WALK => 1,
        WALK_WITHOUT_STAGE_9 => 2,
        _ => 3,
    }
}

impl Tally {
    pub fn new() -> Tally {
        Tally {
            sorts: Vec::new(),
            cells: [[0; 4]; NUMBERS],
            unpacks: [0; NUMBERS],
            contents: [[0; 3]; 3],
            written: 0,
            read: 0,
            things: Vec::new(),
        }
    }

    pub fn asked(&mut self, sort: &str) {
        count(&mut self.sorts, sort, 1);
    }

    /// An answer that both give.
    pub fn cell(&mut self, answer: &Cell, route: u32) {
        self.cells[answer.as_numbers().0 as usize][column(route)] += 1;
    }

    /// An answer that both give.
    pub fn unpack(&mut self, answer: &Cells) {
        self.unpacks[answer.as_numbers().0 as usize] += 1;
    }

    /// How often `gvrs_unpack` was asked.
    pub fn unpacks(&self) -> usize {
        self.unpacks.iter().sum()
    }

    /// A content that both unpack to the cells it was made of.
    pub fn content(&mut self, predictor: u8, type_code: u8) {
        let at = TYPES.iter().position(|(code, _)| *code == type_code).expect("no Float");
        self.contents[usize::from(predictor)][at] += 1;
    }

    /// A thing that has to come about at least once in a whole run.
    pub fn want(&mut self, thing: &str) {
        count(&mut self.things, thing, 0);
    }

    pub fn reached(&mut self, thing: &str) {
        count(&mut self.things, thing, 1);
    }

    /// The answers of cells that both give, by number and times.
    pub fn cell_answers(&self) -> impl Iterator<Item = (u32, usize)> + '_ {
        (0..).zip(self.cells.iter().map(|times| times.iter().sum()))
    }

    /// The same of all cells of an element in a tile.
    pub fn unpack_answers(&self) -> impl Iterator<Item = (u32, usize)> + '_ {
        (0..).zip(self.unpacks)
    }

    pub fn report(&self) {
        println!("Packed contents and M32 codes, questions by sort");
        for (sort, number) in &self.sorts {
            println!("  {number:8}  {sort}");
        }
        let total: usize = self.sorts.iter().map(|(_, number)| number).sum();
        println!("  {total:8}  asked in all");
        let [directory, walk, without_9, other] = ROUTES;
        let whole = "whole tile";
        println!("Read: {directory:>12} {walk:>12} {without_9:>12} {other:>12} {whole:>12}");
        for number in ANSWERS {
            let [a, b, c, d] = self.cells[number as usize];
            let whole = self.unpacks[number as usize];
            println!("  {a:>16} {b:>12} {c:>12} {d:>12} {whole:>12}  {}", name_of(number));
        }
        println!("Contents unpacked to what they were made of");
        for (predictor, types) in PREDICTORS.iter().zip(self.contents) {
            for ((_, type_name), times) in TYPES.iter().zip(types) {
                println!("  {times:8}  {predictor}, {type_name}");
            }
        }
        println!("Packed contents and M32 codes, by what they are about");
        for (thing, number) in &self.things {
            println!("  {number:8}  {thing}");
        }
    }

    /// What never came about, and what never may.
    pub fn missed(&self) -> Vec<String> {
        let mut missed = Vec::new();
        for number in ANSWERS {
            for (route, times) in ROUTES.iter().zip(self.cells[number as usize]) {
                let never_may = number == 9 && *route == "without 9";
                if (times == 0) != never_may {
                    missed.push(format!("cells: {number} by {route}, {times} times"));
                }
            }
            if self.unpacks[number as usize] == 0 {
                missed.push(format!("whole tiles: {number}"));
            }
        }
        for (predictor, types) in PREDICTORS.iter().zip(self.contents) {
            for ((_, type_name), _) in TYPES.iter().zip(types).filter(|(_, times)| *times == 0) {
                missed.push(format!("{predictor}, {type_name}"));
            }
        }
        let never = self.things.iter().filter(|(_, number)| *number == 0);
        missed.extend(never.map(|(thing, _)| thing.clone()));
        missed
    }
}

fn name_of(number: u32) -> String {
    match number {
        STORED => "stored".to_string(),
        FILL => "fill, absent".to_string(),
        UNPACKED => "unpacked".to_string(),
        _ => format!("refused {number}"),
    }
}
