//! Why a file is refused: the rules of the check by their numbers, 1 to 75 (docs/LAYOUT.md, section
//! 15), one behind the other up to the first that is broken. It is written from that table, and
//! shares no test of a rule with `check`, so that the two are held to each other too.

mod directories;
mod elements;
mod head;
mod lists;
mod records;

use super::check::Answer;
use head::Head;
use records::Chain;

/// A rule that is broken, and what breaks it.
#[derive(Clone, Copy, Debug, Default, PartialEq)]
pub struct Fault {
    /// 1 to 75.
    pub rule: u64,
    /// Which side, element, record or tile.
    pub number: u64,
    /// The position of the field.
    pub position: u64,
    pub found: u64,
    pub wanted: u64,
}

/// The refusal and the rule; where the file is accepted all of it is 0.
#[derive(Clone, Copy, Debug, Default, PartialEq)]
pub struct Explained {
    pub answer: Answer,
    pub fault: Fault,
}

impl Explained {
    /// The rule, the number of what breaks it and the position of its field.
    pub fn named(&self) -> (u64, u64, u64) {
        (self.fault.rule, self.fault.number, self.fault.position)
    }

    /// As `gvrs_explain` gives it: its number, and place, rule, number, position, found and wanted.
    pub fn as_numbers(&self) -> (u32, [u64; 6]) {
        let Fault { rule, number, position, found, wanted } = self.fault;
        (self.answer.0, [self.answer.1, rule, number, position, found, wanted])
    }
}

pub fn explain(file: &[u8]) -> Explained {
    match stages(file) {
        Ok(()) => Explained::default(),
        Err(explained) => explained,
    }
}

/// Stages 1 to 9 in their order.
fn stages(file: &[u8]) -> Result<(), Explained> {
    let file = Bytes(file);
    head::identified(file).map_err(refused(1, 0))?;
    head::version(file).map_err(refused(2, 0))?;
    let head = Head::read(file).map_err(refused(3, 0))?;
    head.ceilings(file).map_err(refused(4, 0))?;
    head::not_opened(file).map_err(refused(5, 0))?;
    let chain = Chain::read(file, &head)?;
    chain.checksums(file)?;
    chain.bodies(file, &head)?;
    directories::all(file, &head, &chain).map_err(refused(9, 16))
}

/// A fault as the refusal of a stage.
fn refused(number: u32, place: u64) -> impl Fn(Fault) -> Explained {
    move |fault| Explained { answer: (number, place), fault }
}

/// What a rule says: kept, or the fault.
type Kept = Result<(), Fault>;

/// Integers are not negative up to this.
const LARGEST_INTEGER: u64 = 2_147_483_647;

/// Where a rule looks: its number, the number of what it is about, and the position of its field.
#[derive(Clone, Copy)]
struct Asked {
    rule: u64,
    number: u64,
    position: u64,
}

fn asked(rule: u64, number: u64, position: u64) -> Asked {
    Asked { rule, number, position }
}

impl Asked {
    /// A rule that is no comparison, with the two numbers that help.
    fn holds(self, kept: bool, found: u64, wanted: u64) -> Kept {
        let Asked { rule, number, position } = self;
        if kept {
            Ok(())
        } else {
            Err(Fault { rule, number, position, found, wanted })
        }
    }

    fn at_most(self, found: u64, wanted: u64) -> Kept {
        self.holds(found <= wanted, found, wanted)
    }

    fn at_least(self, found: u64, wanted: u64) -> Kept {
        self.holds(found >= wanted, found, wanted)
    }

    fn equal(self, found: u64, wanted: u64) -> Kept {
        self.holds(found == wanted, found, wanted)
    }

    fn multiple_of_8(self, found: u64) -> Kept {
        self.holds(found.is_multiple_of(8), found, 8)
    }

    fn not_negative(self, found: u64) -> Kept {
        self.at_most(found, LARGEST_INTEGER)
    }
}

/// A file of which any position can be read: a field that does not lie whole in the file reads as 0.
#[derive(Clone, Copy)]
struct Bytes<'a>(&'a [u8]);

impl<'a> Bytes<'a> {
    fn length(self) -> u64 {
        self.0.len() as u64
    }

    fn byte(self, at: u64) -> u64 {
        let byte = usize::try_from(at).ok().and_then(|at| self.0.get(at));
        byte.copied().map_or(0, u64::from)
    }

    fn number(self, at: u64, width: u64) -> u64 {
        if at + width > self.length() {
            return 0;
        }
        (0..width).rev().fold(0, |number, byte| number << 8 | self.byte(at + byte))
    }

    fn short(self, at: u64) -> u64 {
        self.number(at, 2)
    }

    fn integer(self, at: u64) -> u64 {
        self.number(at, 4)
    }

    fn long(self, at: u64) -> u64 {
        self.number(at, 8)
    }

    /// The text whose length field stands there.
    fn text(self, at: u64) -> Text {
        Text { at: at + 2, length: self.short(at) }
    }

    /// The bytes of a text that lies in the file.
    fn bytes_of(self, text: Text) -> &'a [u8] {
        &self.0[text.at as usize..text.end() as usize]
    }
}

/// Where the bytes of a text stand.
#[derive(Clone, Copy)]
struct Text {
    at: u64,
    length: u64,
}

impl Text {
    fn end(self) -> u64 {
        self.at + self.length
    }
}
