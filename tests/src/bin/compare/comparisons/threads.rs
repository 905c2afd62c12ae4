//! The function called from many threads at once, on files that all of them read.

use std::thread;

use gvrs_tests::prng::Prng;
use gvrs_tests::second::cells::Opened;
use gvrs_tests::second::compare::{compare, Comparison, Named};

use super::ask::is_the_comparison;
use super::model::Model;
use crate::run::Run;

const THREADS: usize = 16;
/// How often each thread asks everything.
const ROUNDS: usize = 4;
/// Numbers of memory: enough for some of the pages.
const MEMORY: usize = 200;

const SAME: &str = "16 threads at once: comparisons as one by one";

/// Two files with their compressor indexes, and the second implementation's answer.
struct Question {
    files: [Vec<u8>; 2],
    compressors: [u32; 2],
    answer: Comparison,
}

pub fn section(run: &mut Run, random: &mut Prng) {
    run.comparisons.want(SAME);
    let questions: Vec<Question> = (0..run.times(200)).map(|_| question(random)).collect();
    let questions = &questions[..];
    let faulty: Vec<Option<usize>> = thread::scope(|scope| {
        let ask = |number| scope.spawn(move || first_fault(questions, number));
        let threads: Vec<_> = (0..THREADS).map(ask).collect();
        threads.into_iter().map(|thread| thread.join().expect("the thread returns")).collect()
    });
    match faulty.into_iter().flatten().next() {
        None => run.comparisons.reached(SAME),
        Some(at) => run.fault("many threads: another comparison", &questions[at].files[0]),
    }
}

/// Pages whose tiles differ; one in four is cut.
fn question(random: &mut Prng) -> Question {
    let first = Model::at_random(random);
    let mut second = first.clone();
    for tile in 0..first.page.tile_count() as u32 {
        if random.one_in(3) {
            second.store(tile, random);
        }
    }
    let mut files = [first.file(random).bytes, second.file(random).bytes];
    if random.one_in(4) {
        let cut = random.below(2);
        let length = random.below(files[cut].len());
        files[cut].truncate(length);
    }
    let compressors = [first.index, second.index].map(u32::from);
    let [left, right] = [0, 1].map(|at| Opened::checked(&files[at]));
    let named = |opened, compressor| Named { opened, compressor };
    let answer = compare(named(&left, compressors[0]), named(&right, compressors[1]));
    Question { compressors, answer, files }
}

/// Asks them all, each thread beginning with another, until one is answered otherwise.
fn first_fault(questions: &[Question], number: usize) -> Option<usize> {
    let mut memory = vec![0; MEMORY];
    let begin = number * questions.len() / THREADS;
    let in_turn = (begin..questions.len()).chain(0..begin);
    let mut all = (0..ROUNDS).flat_map(|_| in_turn.clone());
    all.find(|at| {
        let Question { files, compressors, answer } = &questions[*at];
        let [first, second] = [0, 1].map(|at| (&files[at][..], compressors[at]));
        !is_the_comparison(first, second, &mut memory, answer)
    })
}
