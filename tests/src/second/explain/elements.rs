//! The element entries of a header: where their fields stand, and rules 17 to 22.

use super::{asked, Bytes, Kept, Text};
use crate::second::names::{is_identifier, LONGEST_NAME};
use crate::second::utf8::is_utf8;

/// Where the entries begin.
const FIRST: u64 = 284;

/// The entries that are read.
pub struct Entries {
    pub list: Vec<Entry>,
    /// Position behind the last of them.
    pub end: u64,
}

/// G Table 8.
pub struct Entry {
    at: u64,
    pub type_code: u64,
    name: Text,
    label: Text,
    description: Text,
    unit: Text,
}

impl Entry {
    /// An element type above 3 has a range block of 12 bytes.
    fn read(file: Bytes, at: u64) -> Entry {
        let type_code = file.byte(at);
        let name = file.text(at + 8);
        let block = if type_code == 1 { 32 } else { 12 };
        let label = file.text((name.end() + block).next_multiple_of(4));
        let description = file.text(label.end());
        let unit = file.text(description.end());
        Entry { at, type_code, name, label, description, unit }
    }

    fn end(&self) -> u64 {
        self.unit.end().next_multiple_of(4)
    }
}

impl Entries {
    /// An entry that starts behind the checksum's start is not read, and reading stops there.
    pub fn read(file: Bytes, count: u64, limit: u64) -> Entries {
        let mut entries = Entries { list: Vec::new(), end: FIRST };
        for _ in 0..count {
            if entries.end > limit {
                break;
            }
            let entry = Entry::read(file, entries.end);
            entries.end = entry.end();
            entries.list.push(entry);
        }
        entries
    }

    /// All rules of an element before those of the next. The entries lie in the file.
    pub fn judge(&self, file: Bytes) -> Kept {
        for (number, entry) in (0..).zip(&self.list) {
            let name = file.bytes_of(entry.name);
            asked(17, number, entry.at).at_most(entry.type_code, 3)?;
            let good = is_identifier(name, LONGEST_NAME);
            asked(18, number, entry.name.at).holds(good, entry.name.length, 32)?;
            self.name_is_new(file, number, entry)?;
            text_is_good(file, 20, number, entry.label)?;
            text_is_good(file, 21, number, entry.description)?;
            text_is_good(file, 22, number, entry.unit)?;
        }
        Ok(())
    }

    fn name_is_new(&self, file: Bytes, number: u64, entry: &Entry) -> Kept {
        let name = file.bytes_of(entry.name);
        let same = |earlier: &Entry| file.bytes_of(earlier.name) == name;
        let earlier = self.list[..number as usize].iter().position(same);
        asked(19, number, entry.name.at).holds(earlier.is_none(), earlier.unwrap_or(0) as u64, 0)
    }
}

fn text_is_good(file: Bytes, rule: u64, number: u64, text: Text) -> Kept {
    asked(rule, number, text.at).holds(is_utf8(file.bytes_of(text)), text.length, 0)
}
