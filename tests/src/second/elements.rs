//! Elements by their names (Req 04).

use super::cells::{FILL, STORED};
use super::check::{stages_1_to_9, Answer};

/// An element has the name, or none has.
pub const FOUND: u32 = STORED;
pub const ABSENT: u32 = FILL;

/// The check's refusal and its place; else the element's number, from 0, or that no element has the
/// name. Names are equal byte for byte, with case (G section 3.6.1, rule 5).
pub fn find_element(file: &[u8], name: &[u8]) -> Answer {
    let header = match stages_1_to_9(file) {
        Ok(passed) => passed.header,
        Err(refusal) => return refusal,
    };
    for (number, element) in (0..).zip(&header.elements) {
        if element.name == name {
            return (FOUND, number);
        }
    }
    (ABSENT, 0)
}
