//! A page cut at every length: the rule, with all its numbers, as the place of the cut says it.

use gvrs_tests::build::{build, make_checksums_good, Built};
use gvrs_tests::second::explain::Fault;

use super::ask::ask;
use super::pages;
use crate::run::Run;

pub fn section(run: &mut Run) {
    for checksums in [true, false] {
        let mut page = pages::rich();
        page.checksums = checksums;
        let built = build(&page);
        let step = if run.small { 97 } else { 1 };
        for length in (0..built.bytes.len()).step_by(step) {
            cut(run, &built, length);
        }
        lengthened(run, &built);
    }
}

fn cut(run: &mut Run, built: &Built, length: usize) {
    let file = &built.bytes[..length];
    let explained = ask(run, "cut", file);
    let said = (explained.answer, explained.fault);
    match expected(built, length) {
        Some(cut_there) if cut_there != said => {
            run.fault(&format!("why refused: cut {cut_there:?}, {explained:?}"), file);
        }
        Some(_) => run.explanations.reached("cut in the midst"),
        None if explained.answer.0 == 0 => {
            run.fault("why refused: nothing, of a page that lacks its end", file);
        }
        None => run.explanations.reached("cut between records"),
    }
}

/// What is said of a page that is cut in the midst of its first bytes, its header or a record.
fn expected(built: &Built, length: usize) -> Option<((u32, u64), Fault)> {
    let found =
        |rule, number, position, found, wanted| Fault { rule, number, position, found, wanted };
    let wanted = length as u64;
    if length < 16 {
        return Some(((1, 0), found(1, 0, 0, wanted, 16)));
    }
    // A length that does not lie whole in the file is 0.
    if length < 20 {
        return Some(((3, 0), found(8, 0, 20, 0, 6)));
    }
    if length < built.starts[0] {
        return Some(((3, 0), found(7, 0, 16, built.starts[0] as u64, wanted)));
    }
    let number = built.starts.iter().rposition(|start| *start <= length)?;
    let start = built.starts[number] as u64;
    let end = start + built.length(number) as u64;
    match wanted - start {
        0 => None,
        1..=3 => Some(((6, start), found(33, number as u64, start, 0, 16))),
        _ => Some(((6, start), found(36, number as u64, start, end, wanted))),
    }
}

/// Bytes behind the end: what stands there is no record.
fn lengthened(run: &mut Run, built: &Built) {
    let end = built.bytes.len() as u64;
    for more in 1..=40 {
        let mut file = built.bytes.clone();
        file.resize(file.len() + more, 0);
        make_checksums_good(&mut file);
        let explained = ask(run, "lengthened", &file);
        let number = built.starts.len() as u64;
        let no_record = Fault { rule: 33, number, position: end, found: 0, wanted: 16 };
        if (explained.answer, explained.fault) != ((6, end), no_record) {
            run.fault(&format!("why refused: lengthened, {explained:?}"), &file);
        }
    }
}
