//! The closing summary: how many answers were compared of each function of the C interface, and how
//! often each refusal was met.

use gvrs_tests::second::says::List;

use crate::run::Run;
use crate::sheets::tally::Way;

/// Comparisons that a whole run makes at least, all functions together.
const LEAST: usize = 200_000;

/// The refusals of document 01, and those of Req 01, Req 03 and Req 12.
const REFUSALS: [u32; 16] = [1, 2, 3, 4, 5, 6, 7, 8, 9, 10, 11, 12, 13, 14, 15, 16];
/// One more than the greatest of them.
const NUMBERS: usize = 17;

/// A function of the C interface. A comparison is one question put to both, of a cell by one
/// route; the same question with another buffer, another `out` or at another address is not counted
/// again.
pub struct Function {
    name: &'static str,
    comparisons: usize,
    /// How often each refusal was the answer, at its number.
    refusals: [usize; NUMBERS],
}

impl Function {
    /// From the answers by number and times.
    pub fn new(name: &'static str, answers: impl Iterator<Item = (u32, usize)>) -> Function {
        let mut function = Function { name, comparisons: 0, refusals: [0; NUMBERS] };
        for (number, times) in answers {
            function.comparisons += times;
            if REFUSALS.contains(&number) {
                function.refusals[number as usize] += times;
            }
        }
        function
    }
}

/// Prints the two tables.
pub fn report(functions: &[Function]) {
    println!("Comparisons, by function");
    for function in functions {
        println!("  {:8}  {}", function.comparisons, function.name);
    }
    println!("  {:8}  together", together(functions));
    println!("Refusals met");
    for number in REFUSALS {
        println!("  {:8}  refused {number}", met(functions, number));
    }
}

/// What a whole run lacks.
pub fn missed(functions: &[Function]) -> Vec<String> {
    let mut missed = Vec::new();
    if together(functions) < LEAST {
        missed.push(format!("{} comparisons of at least {LEAST}", together(functions)));
    }
    for function in functions.iter().filter(|function| function.comparisons == 0) {
        missed.push(format!("{} was never asked", function.name));
    }
    for number in REFUSALS.into_iter().filter(|number| met(functions, *number) == 0) {
        missed.push(format!("refusal {number} was never met"));
    }
    missed
}

fn together(functions: &[Function]) -> usize {
    functions.iter().map(|function| function.comparisons).sum()
}

fn met(functions: &[Function], number: u32) -> usize {
    functions.iter().map(|function| function.refusals[number as usize]).sum()
}

impl Run {
    /// Every function. Of names, texts and M32 codes by themselves no answer is a refusal.
    pub fn functions(&self) -> Vec<Function> {
        let mut functions = vec![
            Function::new("gvrs_check", self.answers()),
            Function::new("gvrs_check_start", self.starts.answers()),
            Function::new("gvrs_check_rest", (0..).zip(self.rests)),
            Function::new("gvrs_explain", self.explanations.answers()),
            Function::new("gvrs_cell", self.reads.cell_answers()),
            Function::new("gvrs_content", self.reads.content_answers()),
            Function::new("gvrs_front", self.fronts.answers()),
            Function::new("gvrs_lay_down", self.lay_downs.answers()),
            Function::new("gvrs_sheet_in", self.sheets.answers(Way::In)),
            Function::new("gvrs_sheet_out", self.sheets.answers(Way::Out)),
            Function::new("gvrs_list", self.listings.answers()),
            Function::new("gvrs_replay", self.replays.answers()),
            Function::new("gvrs_is_identifier", [(0, self.names)].into_iter()),
            Function::new("gvrs_is_utf8", [(0, self.texts)].into_iter()),
            Function::new("gvrs_compare_names", [(0, self.name_pairs)].into_iter()),
            Function::new("gvrs_find_element", (0..).zip(self.look_ups)),
            Function::new("gvrs_tiles", self.said.answers(List::Tiles)),
            Function::new("gvrs_metadata", self.said.answers(List::Metadata)),
            Function::new("gvrs_methods", self.said.answers(List::Methods)),
            Function::new("gvrs_find_metadata", self.said.found()),
            Function::new("gvrs_cell_with", self.packed.cell_answers()),
            Function::new("gvrs_unpack", self.packed.unpack_answers()),
            Function::new("gvrs_cells", self.face.area_answers()),
            Function::new("gvrs_deed", self.deeds.answers()),
            Function::new("gvrs_compare", self.comparisons.answers()),
            Function::new("gvrs_page", self.face.page_answers()),
            Function::new("gvrs_element", self.face.element_answers()),
            Function::new("gvrs_page_said", self.face.page_said_answers()),
            Function::new("gvrs_element_said", self.face.element_said_answers()),
            Function::new("gvrs_m32_write", [(0, self.packed.written)].into_iter()),
            Function::new("gvrs_m32_read", [(0, self.packed.read)].into_iter()),
        ];
        let corrections = self.corrections.functions();
        functions
            .extend(corrections.map(|(name, answers)| Function::new(name, answers.into_iter())));
        functions
    }
}
