//! The functions called from many threads at once, on files that all of them read.

use std::thread;

use gvrs_tests::library::{element_into, element_said_into, page_into, page_said_into};
use gvrs_tests::prng::Prng;
use gvrs_tests::second::cells::Opened;
use gvrs_tests::second::facts::{ELEMENT_SAID, PAGE_SAID};
use gvrs_tests::second::rectangles::{Area, Rectangle, Rooms};

use super::made::{inside, is_the_answer};
use super::mixed::Mixed;
use crate::run::Run;

const THREADS: usize = 16;
/// How often each thread asks everything.
const ROUNDS: usize = 6;

const SAME: &str = "16 threads at once: rectangles, pages and elements as one by one";

/// What is asked of one file, and the second implementation's answers.
struct Question {
    file: Vec<u8>,
    rectangle: Rectangle,
    compressor: u32,
    area: Area,
    page: (u32, [u64; 13]),
    element: (u32, [u64; 6]),
    page_said: (u32, [u64; PAGE_SAID]),
    element_said: (u32, [u64; ELEMENT_SAID]),
}

pub fn section(run: &mut Run, random: &mut Prng) {
    run.face.want(SAME);
    let questions: Vec<Question> = (0..run.times(300)).map(|_| question(random)).collect();
    let questions = &questions[..];
    let faulty: Vec<Option<usize>> = thread::scope(|scope| {
        let ask = |number| scope.spawn(move || first_fault(questions, number));
        let threads: Vec<_> = (0..THREADS).map(ask).collect();
        threads.into_iter().map(|thread| thread.join().expect("the thread returns")).collect()
    });
    match faulty.into_iter().flatten().next() {
        None => run.face.reached(SAME),
        Some(at) => run.fault("many threads at once: another answer", &questions[at].file),
    }
}

/// Of good pages and of one in four that is cut.
fn question(random: &mut Prng) -> Question {
    let mixed = Mixed::at_random(random);
    let rectangle = inside(&mixed.described(), 400, random);
    let mut file = mixed.built.bytes.clone();
    if random.one_in(4) {
        file.truncate(random.below(file.len()));
    }
    let (compressor, opened) = (mixed.compressor, Opened::checked(&file));
    let area = opened.area(rectangle, compressor, Rooms::of(u64::MAX));
    let (page, element) = (opened.page(), opened.element(rectangle.element));
    let (page_said, element_said) = (opened.page_said(), opened.element_said(rectangle.element));
    Question { rectangle, compressor, area, page, element, page_said, element_said, file }
}

/// Asks them all, each thread beginning with another, until one is answered otherwise.
fn first_fault(questions: &[Question], number: usize) -> Option<usize> {
    let mut memory = vec![0; 600];
    let begin = number * questions.len() / THREADS;
    let in_turn = (begin..questions.len()).chain(0..begin);
    let mut all = (0..ROUNDS).flat_map(|_| in_turn.clone());
    all.find(|at| !is_answered(&questions[*at], &mut memory))
}

fn is_answered(question: &Question, memory: &mut [u32]) -> bool {
    let Question { file, rectangle, compressor, area, page, element, .. } = question;
    let (mut of_page, mut of_element) = ([0; 13], [0; 6]);
    let page_number = page_into(file, &mut of_page);
    let element_number = element_into(file, rectangle.element, &mut of_element);
    is_the_answer(file, *rectangle, *compressor, memory, area)
        && (page_number, of_page) == *page
        && (element_number, of_element) == *element
        && is_said(question)
}

fn is_said(question: &Question) -> bool {
    let Question { file, rectangle, page_said, element_said, .. } = question;
    let (mut of_page, mut of_element) = ([0; PAGE_SAID], [0; ELEMENT_SAID]);
    let page_number = page_said_into(file, &mut of_page);
    let element_number = element_said_into(file, rectangle.element, &mut of_element);
    (page_number, of_page) == *page_said && (element_number, of_element) == *element_said
}
