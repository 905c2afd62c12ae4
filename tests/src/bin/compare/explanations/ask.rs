//! Asks both. Number and place have to be the check's, and what is said has to be so.

use gvrs_tests::library;
use gvrs_tests::second::check::check;
use gvrs_tests::second::explain::{explain, Explained};

use super::told;
use crate::run::Run;

pub fn ask(run: &mut Run, sort: &'static str, file: &[u8]) -> Explained {
    // An allocation of exactly the file's length, so that valgrind sees a read behind it.
    let lent: Box<[u8]> = file.into();
    let from_library = library::explain(&lent);
    let second = explain(file);
    run.explanations.answered(sort, &second);
    if from_library != second.as_numbers() {
        let text = format!("why refused, {sort}: library {from_library:?}, second {second:?}");
        run.fault(&text, file);
    }
    if !told::holds(file, &second.fault) {
        run.fault(&format!("why refused, {sort}: not so, {second:?}"), file);
    }
    let (number, out) = from_library;
    let checks = [library::check(&lent), check(file)];
    if checks != [(number, out[0]); 2] || (out[1] == 0) != (number == 0) {
        let text = format!("why refused, {sort}: {from_library:?}, and the checks {checks:?}");
        run.fault(&text, file);
    }
    second
}
