//! Pages that the check refuses, as the first, the second or both: the first page's refusal comes before
//! everything else, the second's before 12. And files changed at random.

use gvrs_tests::build::build;
use gvrs_tests::page::Page;
use gvrs_tests::prng::Prng;
use gvrs_tests::second::check::Answer;
use gvrs_tests::second::compare::{Comparison, Whose};

use super::ask::Side;
use super::model::Model;
use crate::aims;
use crate::damage::each_damaged;
use crate::reads::bytes_changed::changed_files;
use crate::run::Run;

const SORT: &str = "comparisons of refused pages";

const FIRST: &str = "the first page's refusal, the second accepted";
const SECOND: &str = "the second page's refusal, the first accepted";
const BOTH: &str = "the first page's refusal, both refused";
const UNLIKE_TOO: &str = "a page's refusal, though they are unlike too";

pub fn section(run: &mut Run, random: &mut Prng) {
    for thing in [FIRST, SECOND, BOTH, UNLIKE_TOO] {
        run.comparisons.want(thing);
    }
    let mut last: Option<(Vec<u8>, Answer)> = None;
    for aim in aims::all() {
        if aim.has_long_files() {
            continue;
        }
        each_damaged(&aim, run.times(2), random, |page, file, refusal, random| {
            refused(run, page, file, refusal, &last, random);
            last = Some((file.to_vec(), refusal));
        });
    }
    for _ in 0..run.times(400) {
        changed(run, random);
    }
}

fn refused(
    run: &mut Run,
    page: &Page,
    file: &[u8],
    refusal: Answer,
    last: &Option<(Vec<u8>, Answer)>,
    random: &mut Prng,
) {
    let compressor = u32::from(random.byte());
    let (good, other) = (build(page).bytes, Model::at_random(random).file(random).bytes);
    let side = |file| Side::new(file, compressor, 1);
    let (bad, good, other) = (side(file), side(&good), side(&other));
    let [of_first, of_second] =
        [Whose::First, Whose::Second].map(|whose| Comparison::Refused(whose, refusal));
    let mut is = |first, second, expected, thing| {
        if run.comparison_is(SORT, first, second, expected) {
            run.comparisons.reached(thing);
        }
    };
    is(&bad, &good, &of_first, FIRST);
    is(&good, &bad, &of_second, SECOND);
    is(&bad, &other, &of_first, UNLIKE_TOO);
    is(&other, &bad, &of_second, UNLIKE_TOO);
    if let Some((other_file, other_refusal)) = last {
        let other_bad = side(other_file);
        is(&bad, &other_bad, &of_first, BOTH);
        is(&other_bad, &bad, &Comparison::Refused(Whose::First, *other_refusal), BOTH);
    }
}

/// Whatever both answer.
fn changed(run: &mut Run, random: &mut Prng) {
    let model = Model::at_random(random);
    let page = model.stored(random);
    let built = build(&page);
    let (elements, compressor) = (page.elements.len(), u32::from(model.index));
    let good = Side::new(&built.bytes, compressor, elements);
    for (sort, file) in changed_files(&built, 0, random) {
        let side = Side::new(&file, compressor, elements);
        run.comparison(sort, &good, &side);
        run.comparison(sort, &side, &good);
    }
}
