//! The function called from many threads at once, on files that all of them read.

use std::thread;

use gvrs_tests::prng::Prng;
use gvrs_tests::second::cells::Opened;
use gvrs_tests::second::deeds::{Deed, FIRST};
use gvrs_tests::second::rectangles::Rectangle;

use super::ask::is_the_deed;
use super::scored::{graded, packed_page, Scored};
use crate::face::sample_sums::rectangle;
use crate::run::Run;

const THREADS: usize = 16;
/// How often each thread asks everything.
const ROUNDS: usize = 6;
/// Of a large tile.
const SIDE: u32 = 96;

const SAME: &str = "16 threads at once: deeds as one by one";

/// What is asked of one file, and the second implementation's answer.
struct Question {
    file: Vec<u8>,
    rectangle: Rectangle,
    compressor: u32,
    deed: Deed,
}

pub fn section(run: &mut Run, random: &mut Prng) {
    run.deeds.want(SAME);
    let mut questions: Vec<Question> = (0..run.times(300)).map(|_| question(random)).collect();
    questions.extend((0..run.times(24)).map(|_| large(random)));
    random.shuffle(&mut questions);
    let questions = &questions[..];
    let faulty: Vec<Option<usize>> = thread::scope(|scope| {
        let ask = |number| scope.spawn(move || first_fault(questions, number));
        let threads: Vec<_> = (0..THREADS).map(ask).collect();
        threads.into_iter().map(|thread| thread.join().expect("the thread returns")).collect()
    });
    match faulty.into_iter().flatten().next() {
        None => run.deeds.reached(SAME),
        Some(at) => run.fault("many threads at once: another deed", &questions[at].file),
    }
}

/// Of good pages and of one in four that is cut.
fn question(random: &mut Prng) -> Question {
    let scored = Scored::at_random(random);
    let (rectangle, compressor) = (scored.rectangle(400, random), scored.compressor);
    let mut file = scored.built.bytes;
    if random.one_in(4) {
        file.truncate(random.below(file.len()));
    }
    let deed = Opened::checked(&file).deed(rectangle, compressor);
    Question { rectangle, compressor, deed, file }
}

/// A packed tile that takes long, so that another call comes between. Its scores are of its own.
fn large(random: &mut Prng) -> Question {
    let mut scores = vec![random.between(900, 1000) as i16; (SIDE * SIDE) as usize];
    for _ in 0..50 {
        let at = random.below(scores.len());
        scores[at] = random.between(1, 1000) as i16;
    }
    let index = random.byte();
    let file = packed_page(SIDE, &scores, index, random);
    let compressor = u32::from(index);
    let rectangle = rectangle([0, 0, u64::from(SIDE), u64::from(SIDE)]);
    Question { rectangle, compressor, deed: graded(FIRST, 0, scores), file }
}

/// Asks them all, each thread beginning with another, until one is answered otherwise.
fn first_fault(questions: &[Question], number: usize) -> Option<usize> {
    let mut memory = vec![0; (SIDE * SIDE) as usize];
    let begin = number * questions.len() / THREADS;
    let in_turn = (begin..questions.len()).chain(0..begin);
    let mut all = (0..ROUNDS).flat_map(|_| in_turn.clone());
    all.find(|at| {
        let Question { file, rectangle, compressor, deed } = &questions[*at];
        !is_the_deed(file, *rectangle, *compressor, &mut memory, deed)
    })
}
