//! Numbers and strings in bytes, little-endian (G section 4.1.1).
//! A field that does not lie whole inside the bytes given is `None`.

/// Unsigned short (G Table 4).
pub fn short_at(bytes: &[u8], at: usize) -> Option<u16> {
    let part = bytes.get(at..at.checked_add(2)?)?;
    Some(u16::from_le_bytes(part.try_into().ok()?))
}

/// The four bytes of an Integer or an Unsigned Integer (G Table 4).
pub fn integer_at(bytes: &[u8], at: usize) -> Option<u32> {
    let part = bytes.get(at..at.checked_add(4)?)?;
    Some(u32::from_le_bytes(part.try_into().ok()?))
}

/// The eight bytes of a Long (G Table 4).
pub fn long_at(bytes: &[u8], at: usize) -> Option<u64> {
    let part = bytes.get(at..at.checked_add(8)?)?;
    Some(u64::from_le_bytes(part.try_into().ok()?))
}

/// A length, a count or a side: an Integer that is not negative (reading 1).
pub fn count_at(bytes: &[u8], at: usize) -> Option<usize> {
    not_negative(integer_at(bytes, at)?)
}

fn not_negative(bits: u32) -> Option<usize> {
    usize::try_from(bits as i32).ok()
}

/// Where bytes stand in the file, and how many they are. A text's place is just behind its length
/// field, even if it is empty (Req 10).
#[derive(Clone, Copy, Debug, PartialEq)]
pub struct Span {
    pub at: usize,
    pub length: usize,
}

impl Span {
    pub fn as_numbers(self) -> [u64; 2] {
        [self.at as u64, self.length as u64]
    }
}

/// Reads fields one after another.
pub struct Reader<'a> {
    bytes: &'a [u8],
    at: usize,
}

impl<'a> Reader<'a> {
    pub fn new(bytes: &'a [u8], at: usize) -> Reader<'a> {
        Reader { bytes, at }
    }

    pub fn take(&mut self, count: usize) -> Option<&'a [u8]> {
        let end = self.at.checked_add(count)?;
        let part = self.bytes.get(self.at..end)?;
        self.at = end;
        Some(part)
    }

    pub fn byte(&mut self) -> Option<u8> {
        Some(self.take(1)?[0])
    }

    pub fn integer(&mut self) -> Option<u32> {
        integer_at(self.take(4)?, 0)
    }

    pub fn long(&mut self) -> Option<u64> {
        long_at(self.take(8)?, 0)
    }

    pub fn count(&mut self) -> Option<usize> {
        not_negative(self.integer()?)
    }

    /// An unsigned short, then that many bytes (G Table 5).
    pub fn string(&mut self) -> Option<&'a [u8]> {
        let length = short_at(self.take(2)?, 0)?;
        self.take(usize::from(length))
    }

    /// Up to three bytes that bring the position to a multiple of 4.
    pub fn fill_to_four(&mut self) -> Option<()> {
        let over = self.at % 4;
        if over != 0 {
            self.take(4 - over)?;
        }
        Some(())
    }

    pub fn at(&self) -> usize {
        self.at
    }

    /// Where the bytes stand that were taken last, of a reader over a part of the file that begins
    /// at `start`.
    pub fn last(&self, start: usize, taken: &[u8]) -> Span {
        Span { at: start + self.at - taken.len(), length: taken.len() }
    }

    /// Bytes behind the position.
    pub fn left(&self) -> usize {
        self.bytes.len() - self.at
    }
}
