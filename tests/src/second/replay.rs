//! Replaying a correction log (Req 14): the log is read whole, then each entry is a call of Req 03.

use super::check::Answer;
use super::correct::{correct, Call};
use super::geometry::{tile_bytes, tile_count};
use super::open_page::open_page;

/// What a replay answers and leaves.
#[derive(Clone, Debug, PartialEq)]
pub struct Replayed {
    /// 0, or the refusal's number.
    pub number: u32,
    /// The page's length, or the place of a refusal before the first entry.
    pub length: u64,
    /// The entries done.
    pub entries: u64,
    pub buffer: Vec<u8>,
}

/// A replay on a buffer whose first `n` bytes are the page.
pub fn replay(buffer: &[u8], n: u64, log: &[u8]) -> Replayed {
    match calls_of(buffer, n, log) {
        Ok(calls) => by_hand(buffer, n, &calls),
        Err((number, place)) => {
            Replayed { number, length: place, entries: 0, buffer: buffer.to_vec() }
        }
    }
}

/// Req 14: "A malformed log, or an index past the tiles anywhere in it, is 12 before the page is
/// touched"; behind Req 03's 12 of the page's length and its 15 (reading 3).
pub fn calls_of(buffer: &[u8], n: u64, log: &[u8]) -> Result<Vec<Call>, Answer> {
    if n > buffer.len() as u64 {
        return Err((12, 0));
    }
    let passed = open_page(&buffer[..n as usize]).ok_or((15, 0))?;
    let tile = tile_bytes(&passed.header) as usize;
    entries(log, tile, tile_count(&passed.header)).ok_or((12, 0))
}

/// Req 14: "four-byte big-endian length of the rest, version byte 1, then entries of one byte (1
/// store, 2 remove), a four-byte big-endian tile index and, for a store, the tile's bytes".
fn entries(log: &[u8], tile: usize, tiles: u64) -> Option<Vec<Call>> {
    let (length, rest) = log.split_first_chunk()?;
    if u32::from_be_bytes(*length) as usize != rest.len() {
        return None;
    }
    let (1, mut rest) = rest.split_first()? else {
        return None;
    };
    let mut calls = Vec::new();
    while let Some((kind, behind)) = rest.split_first() {
        let (index, behind) = behind.split_first_chunk()?;
        let index = u64::from(u32::from_be_bytes(*index));
        if index >= tiles {
            return None;
        }
        match kind {
            1 => {
                let (cells, behind) = behind.split_at_checked(tile)?;
                calls.push(Call::Store { tile: index, cells: cells.to_vec() });
                rest = behind;
            }
            2 => {
                calls.push(Call::Remove { tile: index });
                rest = behind;
            }
            _ => return None,
        }
    }
    Some(calls)
}

/// Req 14: "Replay on an open page equals making the calls by hand. A refusal by 13 or 4 stops it,
/// reports the number of entries done and the length, and, against Req 03, leaves the page as those
/// left it."
fn by_hand(buffer: &[u8], n: u64, calls: &[Call]) -> Replayed {
    let mut replayed = Replayed { number: 0, length: n, entries: 0, buffer: buffer.to_vec() };
    for call in calls {
        match correct(&replayed.buffer, replayed.length, call) {
            Ok(page) => {
                replayed.buffer[..page.len()].copy_from_slice(&page);
                replayed.length = page.len() as u64;
                replayed.entries += 1;
            }
            Err((number, _)) => {
                replayed.number = number;
                return replayed;
            }
        }
    }
    replayed
}

/// The log of stores and removals.
pub fn log_of(calls: &[Call]) -> Vec<u8> {
    let mut rest = vec![1];
    for call in calls {
        let (kind, tile, cells): (u8, u64, &[u8]) = match call {
            Call::Store { tile, cells } => (1, *tile, cells),
            Call::Remove { tile } => (2, *tile, &[]),
            other => unreachable!("no entry of a log: {other:?}"),
        };
        rest.push(kind);
        rest.extend((tile as u32).to_be_bytes());
        rest.extend(cells);
    }
    let length = rest.len() as u32;
    [&length.to_be_bytes(), &rest[..]].concat()
}
