//! What was asked of cells and contents, and what came out.

use gvrs_tests::library::{DIRECTORY, WALK, WALK_WITHOUT_STAGE_9};
use gvrs_tests::second::cells::{Cell, Content, FILL, STORED};

const TYPES: [&str; 4] = ["Integer", "integer-coded", "Float", "Short"];
const ROUTES: [&str; 4] = ["directory", "walk", "without 9", "other number"];
const KINDS: [&str; 3] = ["stored", "fill", "compressed"];
const REFUSALS: usize = 12;
/// One more than the greatest number of an answer.
const NUMBERS: usize = FILL as usize + 1;

pub struct Tally {
    /// Questions, by sort of file.
    sorts: Vec<(String, usize)>,
    /// Answers of cells by number, each by route.
    cells: [[usize; 4]; NUMBERS],
    /// Answers of contents by number.
    contents: [usize; NUMBERS],
    /// Cells of made files by type, by kind, each by route.
    types: [[[usize; 4]; 3]; 4],
    /// Things that have to come about, and how often they did.
    things: Vec<(String, usize)>,
}

/// The column of a route number: all others are one.
fn column(route: u32) -> usize {
    match route {
        DIRECTORY => 0,
        WALK => 1,
        WALK_WITHOUT_STAGE_9 => 2,
        _ => 3,
    }
}

fn kind(cell: &Cell) -> Option<usize> {
    match cell {
        Cell::Stored { .. } => Some(0),
        Cell::Fill { .. } => Some(1),
        Cell::Refused((11, _)) => Some(2),
        Cell::Refused(_) | Cell::Unpacked { .. } => None,
    }
}

pub fn count(tally: &mut Vec<(String, usize)>, name: &str, times: usize) {
    match tally.iter_mut().find(|(known, _)| known == name) {
        Some((_, number)) => *number += times,
        None => tally.push((name.to_string(), times)),
    }
}

impl Tally {
    pub fn new() -> Tally {
        Tally {
            sorts: Vec::new(),
            cells: [[0; 4]; NUMBERS],
            contents: [0; NUMBERS],
            types: [[[0; 4]; 3]; 4],
            things: Vec::new(),
        }
    }

    pub fn asked(&mut self, sort: &str) {
        count(&mut self.sorts, sort, 1);
    }

    /// An answer that both give.
    pub fn cell(&mut self, answer: &Cell, route: u32) {
        self.cells[answer.as_numbers().0 as usize][column(route)] += 1;
    }

    /// An answer that both give.
    pub fn content(&mut self, answer: &Content) {
        self.contents[answer.as_numbers().0 as usize] += 1;
    }

    /// A cell of an element of that type.
    pub fn of_type(&mut self, type_code: u8, answer: &Cell, route: u32) {
        if let Some(kind) = kind(answer) {
            self.types[usize::from(type_code)][kind][column(route)] += 1;
        }
    }

    /// A thing that has to come about at least once in a whole run.
    pub fn want(&mut self, thing: &str) {
        count(&mut self.things, thing, 0);
    }

    pub fn reached(&mut self, thing: &str) {
        count(&mut self.things, thing, 1);
    }

    /// The answers of cells that both give, by number and times.
    pub fn cell_answers(&self) -> impl Iterator<Item = (u32, usize)> + '_ {
        (0..).zip(self.cells.iter().map(|times| times.iter().sum()))
    }

    /// The same of contents.
    pub fn content_answers(&self) -> impl Iterator<Item = (u32, usize)> + '_ {
        (0..).zip(self.contents.iter().copied())
    }

    pub fn report(&self) {
        println!("Cells and contents asked for, by sort");
        for (sort, number) in &self.sorts {
            println!("  {number:8}  {sort}");
        }
        let total: usize = self.sorts.iter().map(|(_, number)| number).sum();
        println!("  {total:8}  asked in all");
        self.report_cells();
        self.report_contents();
        println!("Reads, by what they are about");
        for (thing, number) in &self.things {
            println!("  {number:8}  {thing}");
        }
    }

    fn report_cells(&self) {
        let [directory, walk, without_9, other] = ROUTES;
        println!("Cells: {directory:>15} {walk:>12} {without_9:>12} {other:>12}");
        for (number, times) in self.cells.iter().enumerate() {
            if let Some(name) = name_of(number) {
                report_line(times, &name);
            }
        }
        println!("Cells of made files, by type");
        for (type_name, kinds) in TYPES.iter().zip(&self.types) {
            for (kind, times) in KINDS.iter().zip(kinds) {
                report_line(times, &format!("{type_name}, {kind}"));
            }
        }
    }

    fn report_contents(&self) {
        println!("Contents");
        for (number, times) in self.contents.iter().enumerate() {
            if let Some(name) = name_of(number) {
                let name = if name == "fill" { "absent" } else { &name };
                println!("  {times:8}  {name}");
            }
        }
    }

    /// What never came about, and what never may.
    pub fn missed(&self) -> Vec<String> {
        let mut missed = self.missed_answers();
        for (type_name, kinds) in TYPES.iter().zip(&self.types) {
            for (kind, times) in KINDS.iter().zip(kinds) {
                if times.contains(&0) {
                    missed.push(format!("{type_name}, {kind}: by some route"));
                }
            }
        }
        let never = self.things.iter().filter(|(_, number)| *number == 0);
        missed.extend(never.map(|(thing, _)| thing.clone()));
        missed
    }

    fn missed_answers(&self) -> Vec<String> {
        let mut missed = Vec::new();
        for number in (0..self.cells.len()).filter(|number| name_of(*number).is_some()) {
            for (route, times) in ROUTES.iter().zip(&self.cells[number]) {
                let never_may = number == 9 && *route == "without 9";
                if (*times == 0) != never_may {
                    missed.push(format!("cells: {number} by {route}, {times} times"));
                }
            }
            if self.contents[number] == 0 {
                missed.push(format!("contents: {number}"));
            }
        }
        missed
    }
}

/// What an answer's number means, if a read can give it.
fn name_of(number: usize) -> Option<String> {
    match number {
        _ if number == STORED as usize => Some("stored".to_string()),
        _ if number == FILL as usize => Some("fill".to_string()),
        1..REFUSALS => Some(format!("refused {number}")),
        _ => None,
    }
}

fn report_line(times: &[usize; 4], name: &str) {
    let [directory, walk, without_9, other] = times;
    println!("  {directory:>20} {walk:>12} {without_9:>12} {other:>12}  {name}");
}
