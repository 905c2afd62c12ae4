//! Asks both to compare two pages.

use gvrs_tests::library::{compare_into, WithIndex};
use gvrs_tests::second::cells::Opened;
use gvrs_tests::second::compare::{compare, Comparison, Named, ENTRY};

use crate::guarded::Guarded;
use crate::run::Run;

const MARK: u64 = 0x5a5a_5a5a_a5a5_a5a5;
const LIST_MARK: u32 = 0xa5a5_5a5a;
/// What the lent memory holds before a call, in turn.
const MEMORIES: [u32; 4] = [0, 5, u32::MAX, 0x1234_5678];
/// How many numbers `out` has: as many as there are, and others in turn.
const OUT: usize = 2;
const OTHER_OUTS: [usize; 3] = [0, 1, 3];

/// A file that is compared, with the compressor index that is named for it.
pub struct Side<'a> {
    pub file: &'a [u8],
    /// An allocation of exactly the file's length, so that valgrind sees a read behind it.
    lent: Box<[u8]>,
    pub opened: Opened<'a>,
    pub compressor: u32,
    /// Elements, as far as the memory goes.
    elements: usize,
}

impl<'a> Side<'a> {
    pub fn new(file: &'a [u8], compressor: u32, elements: usize) -> Side<'a> {
        let opened = Opened::checked(file);
        Side { file, lent: file.into(), opened, compressor, elements }
    }

    fn named(&self) -> Named<'_> {
        Named { opened: &self.opened, compressor: self.compressor }
    }

    fn with_index(&self) -> WithIndex<'_> {
        (&self.lent, self.compressor)
    }

    /// Numbers of memory that half a call wants: the cells of a tile, all elements together.
    fn half(&self) -> usize {
        self.opened.tile_cells() * self.elements
    }
}

/// The lengths of one call.
struct Lengths {
    memory: usize,
    list: usize,
    out: usize,
}

impl Run {
    /// Asks for the comparison of two pages with memories of none, a few numbers, enough for one page
    /// alone, one less than enough, enough, and more, and with lists of none, one, 4, 5, 9 and 10
    /// numbers, too short by an entry and by a number, exact, longer, and cut anywhere. The answer, if
    /// both give the same with each.
    pub fn comparison(&mut self, sort: &str, first: &Side, second: &Side) -> Option<Comparison> {
        let answer = compare(first.named(), second.named());
        let turn = self.comparisons.asked(sort);
        for lengths in lengths(first.half().max(second.half()), &answer, turn) {
            let entries = lengths.list / ENTRY;
            let call = self.comparisons.next_call(entries.min(answer.differing().len()));
            let filled = MEMORIES[call % MEMORIES.len()];
            if let Some(what) = difference(first, second, &lengths, filled, &answer) {
                self.fault(&format!("{sort}: {what}: the first page"), first.file);
                self.fault("the second page", second.file);
                return None;
            }
        }
        self.comparisons.answered(&answer);
        Some(answer)
    }

    /// The same in both orders: what is not refused gives the same cells, and a refusal stays one.
    /// The first answer.
    pub fn both_orders(&mut self, sort: &str, first: &Side, second: &Side) -> Option<Comparison> {
        let answer = self.comparison(sort, first, second)?;
        let swapped = self.comparison(sort, second, first)?;
        let same = match (&answer, &swapped) {
            (Comparison::Differing(cells), Comparison::Differing(others)) => cells == others,
            (Comparison::Refused(..), Comparison::Refused(..)) => true,
            _ => false,
        };
        if !same {
            self.fault(&format!("{sort}: swapped: {answer:?}, {swapped:?}"), first.file);
        }
        same.then_some(answer)
    }

    /// As `comparison`, where the answer is known. True if it comes.
    pub fn comparison_is(
        &mut self,
        sort: &str,
        first: &Side,
        second: &Side,
        expected: &Comparison,
    ) -> bool {
        let answer = self.comparison(sort, first, second);
        if answer.as_ref().is_some_and(|answer| answer != expected) {
            self.fault(&format!("{sort}: {answer:?}, expected {expected:?}"), first.file);
        }
        answer.as_ref() == Some(expected)
    }
}

/// Of a refusal before any cell is read, three; else each memory with one list in turn, and each list
/// with one memory in turn. Then one with another `out`.
fn lengths(half: usize, answer: &Comparison, turn: usize) -> Vec<Lengths> {
    let all = ENTRY * answer.differing().len();
    let cut = if all == 0 { 7 } else { turn * 7919 % all };
    let [less, entry_less] = [1, ENTRY].map(|by| all.saturating_sub(by));
    let lists = [all, 0, cut, 4, all + 7, 5, less, 9, entry_less, 10, all + 1, 1];
    let memories = [0, half / 2, half, (2 * half).saturating_sub(1), 2 * half, 2 * half + 3];
    let few = matches!(answer, Comparison::Refused(_, (1..=10 | 12, _)));
    let memories = if few { &memories[4..] } else { &memories[..] };
    let list = |number: usize| lists[(turn + number) % lists.len()];
    let memory = |number: usize| memories[(turn + number) % memories.len()];
    let mut calls = Vec::new();
    for (number, length) in memories.iter().enumerate() {
        calls.push(Lengths { memory: *length, list: list(number), out: OUT });
    }
    for (number, length) in lists.iter().enumerate().take(if few { 2 } else { lists.len() }) {
        calls.push(Lengths { memory: memory(number), list: *length, out: OUT });
    }
    let out = OTHER_OUTS[turn % OTHER_OUTS.len()];
    calls.push(Lengths { memory: memory(0), list: list(1), out });
    calls
}

/// Nothing is written but the entries that fit, as many numbers of `out` as fit, and any numbers into
/// the memory.
fn difference(
    first: &Side,
    second: &Side,
    lengths: &Lengths,
    filled: u32,
    answer: &Comparison,
) -> Option<String> {
    let (number, numbers) = answer.as_numbers();
    let mut memory = Guarded::taking(filled, lengths.memory, &[]);
    let mut list = Guarded::taking(LIST_MARK, lengths.list, &answer.listed(lengths.list));
    let mut out = Guarded::for_numbers(MARK, lengths.out, &numbers);
    let [memory_room, list_room] = [memory.room(), list.room()];
    let (of_first, of_second) = (first.with_index(), second.with_index());
    let answered = compare_into(of_first, of_second, memory_room, list_room, out.room());
    let files_stay = *first.lent == *first.file && *second.lent == *second.file;
    let right = list.is_right() && out.is_right();
    if answered == number && right && memory.guards_stay() && files_stay {
        return None;
    }
    let around = if memory.guards_stay() { "" } else { "; written around the memory" };
    let file = if files_stay { "" } else { "; a file has changed" };
    let wrong = match list.first_wrong() {
        Some((at, is, wanted)) => format!("; list[{at}] is {is}, and not {wanted}"),
        None => String::new(),
    };
    Some(format!(
        "memory of {}, list of {}, out of {}: library {answered}, {:x?}, second {number}, \
         {numbers:x?}{wrong}{around}{file}",
        lengths.memory,
        lengths.list,
        lengths.out,
        out.all()
    ))
}

/// Whether the library gives this answer and, into a list with room for all, these entries, with this
/// memory as it is.
pub fn is_the_comparison(
    first: WithIndex,
    second: WithIndex,
    memory: &mut [u32],
    answer: &Comparison,
) -> bool {
    let room = ENTRY * answer.differing().len();
    let (mut list, mut out) = (vec![LIST_MARK; room], [u64::MAX; 2]);
    let number = compare_into(first, second, memory, &mut list, &mut out);
    (number, out) == answer.as_numbers() && list == answer.listed(room)
}
