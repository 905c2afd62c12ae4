//! Files at the ceiling and one byte longer that begin so.

use gvrs_tests::build::{build, Built};
use gvrs_tests::prng::Prng;
use gvrs_tests::random_page::random_page;
use gvrs_tests::second::header::FILE_CEILING;

use super::begins_so::begins_so;
use crate::run::Run;

const SORT: &str = "stated lengths at the ceiling";
const AT: &str = "a file of 16,777,216 bytes that begins so";
const ABOVE: &str = "a file of 16,777,217 bytes that begins so";

/// A good page: accepted, then 4. One that was opened: 5, then 4. One with another type: 3 twice.
pub fn section(run: &mut Run, random: &mut Prng) {
    for thing in [AT, ABOVE] {
        run.starts.want(thing);
    }
    let good = build(&random_page(random));
    at_the_ceiling(run, &good, [0, 4], random);
    let mut opened = good.clone();
    let field = opened.only("time opened");
    opened.set(&field, 1);
    at_the_ceiling(run, &opened, [5, 4], random);
    let mut other = good.clone();
    other.bytes[20] = 5;
    at_the_ceiling(run, &other, [3, 3], random);
}

fn at_the_ceiling(run: &mut Run, built: &Built, numbers: [u32; 2], random: &mut Prng) {
    let end = built.starts[0];
    let cases = [(FILE_CEILING, AT), (FILE_CEILING + 1, ABOVE)];
    for ((length, thing), number) in cases.into_iter().zip(numbers) {
        let answer = run.start(SORT, &built.bytes[..end], length as u64);
        if answer.number != number {
            run.fault(&format!("{SORT}: expected {number}, {answer:?}"), &built.bytes);
            continue;
        }
        begins_so(run, &built.bytes, (end, length), answer, random);
        run.starts.reached(thing);
    }
}
