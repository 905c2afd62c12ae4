//! Random descriptions: where a front is made, a page laid down with it says what it was told.

use gvrs_tests::library::{element_into, page_into};
use gvrs_tests::prng::Prng;
use gvrs_tests::second::lay_down::{lay_down, Given};

use super::draft::{random as random_draft, Draft};
use crate::run::Run;

const SORT: &str = "random descriptions";
const PAGE: &str = "a page laid down with a front that was made is accepted and says what was told";

pub fn section(run: &mut Run, random: &mut Prng) {
    run.fronts.want(PAGE);
    let draft = random_draft(random);
    let Some(Ok(front)) = run.front(SORT, &draft.given()) else {
        return;
    };
    let given = Given { front, time: 1, indexes: Vec::new(), cells: Vec::new() };
    let room = lay_down(&given, usize::MAX).map_or(0, |file| file.len());
    let Some(Ok(file)) = run.lay_down(SORT, &given, room) else {
        return run.fault("a front that was made is not laid down", &given.front);
    };
    if run.compare("pages from nothing", &file) != (0, 0) {
        return run.fault("a page from nothing is refused", &file);
    }
    match difference(&draft, &file) {
        Some(text) => run.fault(&format!("a page from nothing: {text}"), &file),
        None => run.fronts.reached(PAGE),
    }
}

/// What a page's numbers and its elements' say against what was told.
fn difference(draft: &Draft, file: &[u8]) -> Option<String> {
    let mut page = [0; 13];
    page_into(file, &mut page);
    let sides = page[..4].iter().zip(draft.sides).all(|(said, told)| *said == u64::from(told));
    let rest = [page[6], page[12]] == [draft.elements.len() as u64, u64::from(draft.flag)];
    if !sides || !rest || file[24..40] != draft.uuid[..] {
        return Some(format!("{page:?}"));
    }
    for (number, element) in draft.elements.iter().enumerate() {
        let mut out = [0; 6];
        element_into(file, number as u64, &mut out);
        let [kind, fill, name, name_length, unit, unit_length] = out;
        let part = |at: u64, length: u64| &file[at as usize..(at + length) as usize];
        let numbers = [kind, fill] == [u64::from(element.kind), u64::from(element.fill())];
        let texts =
            part(name, name_length) == element.name && part(unit, unit_length) == element.unit;
        if !numbers || !texts {
            return Some(format!("element {number}: {out:?}"));
        }
    }
    None
}
