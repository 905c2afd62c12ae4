//! The first half of the check: stages 1 to 5 from the first bytes of a file and its stated full
//! length (Req 12).

use super::header::{
    has_version_1_4, header_of, is_identified, is_opened, lawful_end, passes_a_ceiling,
};

/// An answer of the first half.
#[derive(Clone, Copy, Debug, PartialEq)]
pub struct Start {
    /// The refusal's number, 0 where stages 1 to 5 accept.
    pub number: u32,
    pub place: u64,
    /// How many first bytes the stage needs where the number is 16, else 0.
    pub needed: u64,
}

impl Start {
    /// Every answer but 16. The refusals of stages 1 to 5 and 12 have place 0.
    pub fn numbered(number: u32) -> Start {
        Start { number, place: 0, needed: 0 }
    }

    /// "New refusal 16, place 0".
    pub fn needing(needed: u64) -> Start {
        Start { number: 16, place: 0, needed }
    }

    /// "Any first answer but 12 and 16".
    pub fn is_of_a_stage(self) -> bool {
        self.number != 12 && self.number != 16
    }
}

/// "Stages 1 to 5 alone, from the first bytes of a file and its stated full length", any number of
/// 64 bits.
pub fn check_start(first: &[u8], length: u64) -> Start {
    match stages_1_to_5(first, length) {
        Ok(()) => Start::numbered(0),
        Err(answer) => answer,
    }
}

fn stages_1_to_5(first: &[u8], length: u64) -> Result<(), Start> {
    refuse_if(first.len() as u64 > length, 12)?;
    needs(first, length, 16)?;
    refuse_if(!is_identified(first), 1)?;
    refuse_if(!has_version_1_4(first), 2)?;
    needs(first, length, 24)?;
    needs_the_header(first, length)?;
    let header = header_of(first, length).ok_or(Start::numbered(3))?;
    refuse_if(passes_a_ceiling(length, &header), 4)?;
    refuse_if(is_opened(&header), 5)
}

fn refuse_if(refused: bool, number: u32) -> Result<(), Start> {
    if refused {
        Err(Start::numbered(number))
    } else {
        Ok(())
    }
}

/// "Stages 1 and 2 need 16 bytes, stage 3 needs 24, each all of a shorter file".
fn needs(first: &[u8], length: u64, count: u64) -> Result<(), Start> {
    let needed = count.min(length);
    if (first.len() as u64) < needed {
        Err(Start::needing(needed))
    } else {
        Ok(())
    }
}

/// "And then, if the header's length is lawful, the whole header."
fn needs_the_header(first: &[u8], length: u64) -> Result<(), Start> {
    match lawful_end(first, length) {
        Some(end) if first.len() < end => Err(Start::needing(end as u64)),
        _ => Ok(()),
    }
}
