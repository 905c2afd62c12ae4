//! Asks both for the listing of a file.

use gvrs_tests::library::list_into;
use gvrs_tests::second::listing::listing;

use crate::run::Run;

const GUARD: u8 = 0xa5;
const GUARDS: usize = 8;

impl Run {
    /// The listing with a buffer that is exactly long, longer, one short and empty. Both must agree.
    pub fn listing(&mut self, sort: &str, file: &[u8]) -> Option<String> {
        let length = listing(file).len();
        self.listing_into(sort, file, &[length, length + 5, length - 1, 0])
    }

    /// The same with buffers of these lengths.
    pub fn listing_into(&mut self, sort: &str, file: &[u8], rooms: &[usize]) -> Option<String> {
        // An allocation of exactly the file's length, so that valgrind sees a read behind it.
        let lent: Box<[u8]> = file.into();
        let text = listing(file);
        self.listings.asked(sort, 2 * rooms.len());
        for room in rooms {
            if let Some(what) = difference(&lent, &text, *room) {
                self.fault(&format!("listing, {sort}: {what}"), file);
                return None;
            }
        }
        if *lent != *file {
            self.fault(&format!("listing, {sort}: the file has changed"), file);
            return None;
        }
        self.listings.answered(&text);
        Some(text)
    }

    /// As `listing`, where the text is known.
    pub fn listing_is(&mut self, sort: &str, thing: &str, file: &[u8], expected: &str) {
        match self.listing(sort, file) {
            Some(text) if text == expected => self.listings.reached(thing),
            Some(text) => {
                let what =
                    format!("{thing}: expected {}, second {}", start(expected), start(&text));
                self.fault(&what, file);
            }
            None => (),
        }
    }
}

/// The text is written where it fits, and what stands behind it stays; else all stays as it stood.
/// Two calls, whose buffers differ in every byte before, so that a byte left unwritten shows.
fn difference(file: &[u8], text: &str, room: usize) -> Option<String> {
    for flip in [0, 0xff] {
        let standing: Vec<u8> = (0..room).map(|at| (37 * at >> 2) as u8 ^ flip).collect();
        let guard = [GUARD; GUARDS];
        let mut memory = [&guard, &standing[..], &guard].concat();
        let mut expected = memory.clone();
        if text.len() <= room {
            expected[GUARDS..GUARDS + text.len()].copy_from_slice(text.as_bytes());
        }
        let length = list_into(file, &mut memory[GUARDS..GUARDS + room]);
        if length != text.len() as u64 {
            return Some(format!("room {room}: length {length}, expected {}", text.len()));
        }
        if memory != expected {
            let found = String::from_utf8_lossy(&memory).into_owned();
            return Some(format!("room {room}: {:?}, expected {:?}", start(&found), start(text)));
        }
    }
    None
}

/// As much of a text as a message takes.
fn start(text: &str) -> String {
    text.chars().take(100).collect()
}
