//! "Any first answer but 12 and 16 is that of stages 1 to 5 on each file of that length which begins
//! so" (Req 12).

use gvrs_tests::library;
use gvrs_tests::prng::Prng;
use gvrs_tests::second::check::stages_1_to_5;
use gvrs_tests::second::start::Start;

use super::ask::agrees;
use super::tally::RESTS;
use crate::run::Run;

const SORT: &str = "whole files that begin so";
/// A true rest behind accepted first bytes that the whole check accepts.
pub const ACCEPTED: &str = "a file that begins so is accepted";
/// The same of a file that later stages refuse.
pub const REFUSED_LATER: &str = "a file that begins so is refused by stages 6 to 9";

/// Three files of the stated length behind the first bytes, a part of `bytes`: zeros, junk and the
/// true rest, with zeros where `bytes` ends. One file where no byte is left.
pub fn begins_so(
    run: &mut Run,
    bytes: &[u8],
    asked: (usize, usize),
    answer: Start,
    random: &mut Prng,
) {
    let (given, length) = asked;
    let first = &bytes[..given];
    let mut own = bytes[..length.min(bytes.len())].to_vec();
    own.resize(length, 0);
    judge(run, &own, 2, answer);
    if length > given {
        let mut zeros = first.to_vec();
        zeros.resize(length, 0);
        judge(run, &zeros, 0, answer);
        judge(run, &[first, &random.bytes(length - given)].concat(), 1, answer);
    }
}

/// Stages 1 to 5 of the file, by both first halves and by the second implementation's check, and
/// the library's check.
fn judge(run: &mut Run, file: &[u8], rest: usize, answer: Start) {
    let whole = run.start(SORT, file, file.len() as u64);
    let stages = stages_1_to_5(file).map_or_else(|refusal| refusal, |_| (0, 0));
    let check = library::check(file);
    if whole != answer || stages != (answer.number, answer.place) || !agrees(check, answer) {
        let found = format!("whole {whole:?}, stages 1 to 5 {stages:?}, check {check:?}");
        run.fault(&format!("{SORT}, {}: first {answer:?}, {found}", RESTS[rest]), file);
        return;
    }
    run.starts.begun(answer.number, rest);
    match check.0 {
        0 => run.starts.reached(ACCEPTED),
        6.. => run.starts.reached(REFUSED_LATER),
        _ => (),
    }
}
