//! Asks both for lists, and for metadata records by name and ID.

use gvrs_tests::library::{find_metadata_into, list_items_into};
use gvrs_tests::second::check::Answer;
use gvrs_tests::second::says::{List, Said};

use crate::guarded::Guarded;
use crate::reads::ask::Asked;
use crate::run::Run;

const MARK: u64 = 0x5a5a_5a5a_a5a5_a5a5;
const NUMBER_MARK: u64 = 0xc35a_3ca5_a53c_5ac3;

/// Items that are far past the end; some times the size of an item wrap to a low number.
const FAR: [u64; 8] = [
    u64::MAX,
    1 << 63,
    1 << 62,
    1 << 32,
    (1 << 32) + 1,
    u64::MAX / 9 + 1,
    u64::MAX / 4,
    (1 << 63) + 1,
];
/// Lists of more items are not read item by item, and with fewer rooms.
const MOST_ITEMS: usize = 320;
/// How many numbers `out` has, in turn.
const OUTS: [usize; 5] = [2, 0, 2, 1, 3];
const FIND_OUTS: [usize; 4] = [1, 0, 1, 3];

/// A question, and the lengths of `numbers` with which it is asked.
struct Question {
    from: u64,
    rooms: Vec<usize>,
}

impl Run {
    /// Asks for a list item by item and, from the first, another and the last of them, with each room
    /// from none to two items and one number more; in one call, with room for just all, a number less,
    /// one more and all but one of an item more; and past the end. With an `out` of 0 to 3 in turn.
    /// The list, if both give the same each time.
    pub fn list(&mut self, sort: &str, asked: &Asked, list: List) -> Option<Said> {
        let said = asked.checked.list(list);
        let turn = self.said.turn();
        for question in questions(&said, turn) {
            self.said.asked(sort);
            for room in question.rooms {
                let out = OUTS[self.said.next_call() % OUTS.len()];
                if let Some(what) = difference(asked, &said, question.from, room, out) {
                    self.fault(&format!("{sort}: {list:?}: {what}"), asked.file);
                    return None;
                }
            }
            self.said.answered(list, said.taken(question.from, 0).0);
        }
        Some(said)
    }

    /// As `list`, where it is known. True if it comes.
    pub fn list_is(
        &mut self,
        sort: &str,
        asked: &Asked,
        list: List,
        expected: &Result<Vec<u64>, Answer>,
    ) -> bool {
        let said = self.list(sort, asked, list);
        let same = said.as_ref().is_some_and(|said| said.numbers == *expected);
        if said.is_some() && !same {
            self.fault(&format!("{sort}: {said:?}, expected {expected:?}"), asked.file);
        }
        same
    }

    /// Asks for the metadata record of a name and an ID, with an `out` of 0, 1 and 3 in turn. The
    /// answer, if both give the same.
    pub fn find(&mut self, sort: &str, asked: &Asked, name: &[u8], id: u32) -> Option<Answer> {
        // An allocation of exactly this length, so that valgrind sees a read behind it.
        let lent: Box<[u8]> = name.into();
        let (number, found) = asked.checked.find_metadata(name, id);
        self.said.asked(sort);
        for room in [1, FIND_OUTS[self.said.next_call() % FIND_OUTS.len()]] {
            let mut out = Guarded::for_numbers(MARK, room, &[found]);
            let answered = find_metadata_into(&asked.lent, &lent, id, out.room());
            if answered != number || !out.is_right() || *asked.lent != *asked.file {
                let text = format!(
                    "{sort}: {name:x?}, {id}, out of {room}: library {answered}, {:x?}, second \
                     {number}, {found}",
                    out.all()
                );
                self.fault(&text, asked.file);
                return None;
            }
        }
        self.said.looked_up(number);
        Some((number, found))
    }

    /// As `find`, where the answer is known. True if it comes.
    pub fn find_is(
        &mut self,
        sort: &str,
        asked: &Asked,
        (name, id): (&[u8], u32),
        expected: Answer,
    ) -> bool {
        let answer = self.find(sort, asked, name, id);
        if answer.is_some_and(|answer| answer != expected) {
            let text = format!("{sort}: {name:x?}, {id}: {answer:?}, expected {expected:?}");
            self.fault(&text, asked.file);
        }
        answer == Some(expected)
    }
}

/// Of a refused file few.
fn questions(said: &Said, turn: usize) -> Vec<Question> {
    let (items, size) = (said.items(), said.list.size());
    let far = FAR[turn % FAR.len()];
    if said.numbers.is_err() {
        return [0, far].map(|from| Question { from, rooms: vec![0, size, 2 * size + 1] }).into();
    }
    let each: Vec<usize> = (0..=2 * size + 1).collect();
    let mut chosen = vec![0, items.saturating_sub(1), items.saturating_sub(2)];
    chosen.push(if items == 0 { 0 } else { turn % items });
    let one_by_one = 0..if items <= MOST_ITEMS { items } else { 0 };
    let mut froms: Vec<usize> = one_by_one.chain(chosen.iter().copied()).collect();
    froms.sort_unstable();
    froms.dedup();
    let all = |from: usize| size * (items - from);
    let mut questions = Vec::new();
    for from in froms {
        let mut rooms = vec![size];
        if chosen.contains(&from) {
            rooms.extend(if items <= MOST_ITEMS { &each[..] } else { &each[size - 1..=size + 1] });
            rooms.extend([all(from), all(from).saturating_sub(1)]);
            rooms.extend([all(from) + 1, all(from) + size - 1]);
        }
        questions.push(Question { from: from as u64, rooms });
    }
    for from in [items as u64, items as u64 + 1, far] {
        questions.push(Question { from, rooms: vec![0, size, 2 * size + 1] });
    }
    questions
}

/// Nothing is written but the items that fit whole, and as many numbers of `out` as fit.
fn difference(
    asked: &Asked,
    said: &Said,
    from: u64,
    room: usize,
    out_room: usize,
) -> Option<String> {
    let (number, taken, told) = said.taken(from, room);
    let mut numbers = Guarded::taking(NUMBER_MARK, room, taken);
    let mut out = Guarded::for_numbers(MARK, out_room, &told);
    let answered = list_items_into(&asked.lent, said.list, from, numbers.room(), out.room());
    let file_stays = *asked.lent == *asked.file;
    if answered == number && numbers.is_right() && out.is_right() && file_stays {
        return None;
    }
    let file = if file_stays { "" } else { "; the file has changed" };
    Some(format!(
        "from {from}, room for {room}, out of {out_room}: library {answered}, {:x?}, second \
         {number}, {told:x?}; first number that differs {:x?}{file}",
        out.all(),
        numbers.first_wrong()
    ))
}

/// Whether the library gives this list, with room for just all of it.
pub fn is_the_list(file: &[u8], said: &Said) -> bool {
    let (number, taken, told) = said.taken(0, usize::MAX);
    let (mut numbers, mut out) = (vec![NUMBER_MARK; taken.len()], [MARK; 2]);
    let answered = list_items_into(file, said.list, 0, &mut numbers, &mut out);
    (answered, &numbers[..], out) == (number, taken, told)
}
