//! The functions called from many threads at once, on files that all of them read.

use std::thread;

use gvrs_tests::build::build;
use gvrs_tests::library::find_metadata;
use gvrs_tests::prng::Prng;
use gvrs_tests::random_page::random_page;
use gvrs_tests::second::cells::Opened;
use gvrs_tests::second::check::Answer;
use gvrs_tests::second::says::{Said, LISTS};

use super::ask::is_the_list;
use crate::run::Run;

const THREADS: usize = 16;
/// How often each thread asks everything.
const ROUNDS: usize = 4;
/// What is looked up. IDs below 3 are common.
const KEY: (&[u8], u32) = (b"A", 1);

const SAME: &str = "16 threads at once: lists as one by one";

/// A file, and the second implementation's answers.
struct Question {
    file: Vec<u8>,
    lists: [Said; 3],
    found: Answer,
}

pub fn section(run: &mut Run, random: &mut Prng) {
    run.said.want(SAME);
    let questions: Vec<Question> = (0..run.times(200)).map(|_| question(random)).collect();
    let questions = &questions[..];
    let faulty: Vec<Option<usize>> = thread::scope(|scope| {
        let ask = |number| scope.spawn(move || first_fault(questions, number));
        let threads: Vec<_> = (0..THREADS).map(ask).collect();
        threads.into_iter().map(|thread| thread.join().expect("the thread returns")).collect()
    });
    match faulty.into_iter().flatten().next() {
        None => run.said.reached(SAME),
        Some(at) => run.fault("many threads at once: another list", &questions[at].file),
    }
}

/// Of good pages and of one in four that is cut.
fn question(random: &mut Prng) -> Question {
    let mut file = build(&random_page(random)).bytes;
    if random.one_in(4) {
        file.truncate(random.below(file.len()));
    }
    let opened = Opened::checked(&file);
    let lists = LISTS.map(|list| opened.list(list));
    let found = opened.find_metadata(KEY.0, KEY.1);
    Question { lists, found, file }
}

/// Asks them all, each thread beginning with another, until one is answered otherwise.
fn first_fault(questions: &[Question], number: usize) -> Option<usize> {
    let begin = number * questions.len() / THREADS;
    let in_turn = (begin..questions.len()).chain(0..begin);
    let mut all = (0..ROUNDS).flat_map(|_| in_turn.clone());
    all.find(|at| {
        let Question { file, lists, found } = &questions[*at];
        let listed = lists.iter().all(|said| is_the_list(file, said));
        !listed || find_metadata(file, KEY.0, KEY.1) != *found
    })
}
