//! Score sheets moved into pages, and pages out to score sheets (Req 13).

use std::collections::HashMap;

use super::cells::{cells, number_inside, tile_of};
use super::cells::{Cells, Opened, Spot};
use super::check::{stages_1_to_4_of_a_front, Answer, Passed};
use super::deeds::{rule_of, FIRST};
use super::geometry::{tile_count, tiles_across};
use super::header::Header;
use super::lay_down::{lay_down, Given, Laid};

/// G Table 2.
const SHORT: u8 = 3;

/// Req 13: "-1 for unread".
pub const UNREAD: i16 = -1;

/// Bytes before the scores: the length, the version, rows and columns.
const HEAD: usize = 9;
const VERSION: u8 = 1;

/// A score sheet that is right, or that is about to be written.
#[derive(Clone, Debug, PartialEq)]
pub struct Sheet {
    pub rows: u16,
    pub columns: u16,
    /// By rows.
    pub scores: Vec<i16>,
}

/// Req 13: "-1 for unread, else 0 to 1000".
pub fn is_score(score: i16) -> bool {
    (UNREAD..=1000).contains(&score)
}

impl Sheet {
    /// Req 13: "all big-endian: a four-byte length of all that follows, a version byte 1, rows and
    /// columns as 16-bit numbers (at least 1), then 16-bit scores by rows".
    pub fn bytes(&self) -> Vec<u8> {
        let stated = HEAD - 4 + 2 * self.scores.len();
        let mut bytes = (stated as u32).to_be_bytes().to_vec();
        bytes.push(VERSION);
        bytes.extend(self.rows.to_be_bytes());
        bytes.extend(self.columns.to_be_bytes());
        bytes.extend(self.scores.iter().flat_map(|score| score.to_be_bytes()));
        bytes
    }

    /// `None` is a bad sheet (readings 1 and 2).
    pub fn read(bytes: &[u8]) -> Option<Sheet> {
        let (stated, behind) = bytes.split_first_chunk::<4>()?;
        if u32::from_be_bytes(*stated) as usize != behind.len() {
            return None;
        }
        let (head, scores) = behind.split_first_chunk::<5>()?;
        let [version, high_rows, low_rows, high_columns, low_columns] = *head;
        let rows = u16::from_be_bytes([high_rows, low_rows]);
        let columns = u16::from_be_bytes([high_columns, low_columns]);
        let cells = usize::from(rows) * usize::from(columns);
        if version != VERSION || cells == 0 || scores.len() != 2 * cells {
            return None;
        }
        let of_two = |pair: &[u8]| i16::from_be_bytes([pair[0], pair[1]]);
        let scores: Vec<i16> = scores.chunks_exact(2).map(of_two).collect();
        scores.iter().all(|score| is_score(*score)).then_some(Sheet { rows, columns, scores })
    }

    /// The score of a cell; "cells past the grid are -1".
    fn score(&self, row: u64, column: u64) -> i16 {
        if row >= u64::from(self.rows) || column >= u64::from(self.columns) {
            return UNREAD;
        }
        self.scores[(row * u64::from(self.columns) + column) as usize]
    }
}

// The way in.

/// Into a buffer of `room` bytes. Req 13: "A bad sheet or front is 12 once the front has passed its
/// own stages. Then the lay-down's refusals in its order."
pub fn sheet_in(front: &[u8], time: u64, sheet: &[u8], room: usize) -> Laid {
    let header = stages_1_to_4_of_a_front(front)?;
    let sheet = Sheet::read(sheet).ok_or((12, 0))?;
    if !fits(&header, &sheet) {
        return Err((12, 0));
    }
    lay_down(&given(front, time, &header, &sheet), room)
}

/// Req 13: "with a front that has its grid, one element only, a Short, and fill -1".
fn fits(header: &Header, sheet: &Sheet) -> bool {
    header.grid_rows == u64::from(sheet.rows)
        && header.grid_columns == u64::from(sheet.columns)
        && has_scores(header)
}

fn has_scores(header: &Header) -> bool {
    match &header.elements[..] {
        [element] => element.type_code == SHORT && element.fill as u16 as i16 == UNREAD,
        _ => false,
    }
}

/// Req 13: "tiles all -1 stay absent, cells past the grid are -1".
fn given(front: &[u8], time: u64, header: &Header, sheet: &Sheet) -> Given {
    let (mut indexes, mut cells) = (Vec::new(), Vec::new());
    for index in 0..tile_count(header) {
        let scores = tile_scores(header, sheet, index);
        if scores.iter().any(|score| *score != UNREAD) {
            indexes.push(index as u32);
            cells.extend(scores.iter().flat_map(|score| score.to_le_bytes()));
        }
    }
    Given { front: front.to_vec(), time, indexes, cells }
}

/// Those of a tile, row by row.
fn tile_scores(header: &Header, sheet: &Sheet, index: u64) -> Vec<i16> {
    let (down, right) = (index / tiles_across(header), index % tiles_across(header));
    let row_of = |row| {
        let first = right * header.tile_columns;
        (first..first + header.tile_columns).map(move |column| sheet.score(row, column))
    };
    let first = down * header.tile_rows;
    (first..first + header.tile_rows).flat_map(row_of).collect()
}

// The way out.

impl Opened<'_> {
    /// Into a buffer of `room` bytes. Req 13: "And back: the check's refusals, then 12 if it has not
    /// one element only, a Short, the fill is not -1, Req 08's rule not the first, a side exceeds
    /// 65,535 or the length 4,294,967,295; then the first grid cell by rows that is 11, 14 or,
    /// outside -1 to 1000, 12; then 13 exactly if the sheet's buffer is too short."
    pub fn sheet_out(&self, compressor: u32, room: u64) -> Result<Vec<u8>, Answer> {
        let passed = self.passed.as_ref().map_err(|refusal| *refusal)?;
        let header = &passed.header;
        let (Ok(rows), Ok(columns)) =
            (u16::try_from(header.grid_rows), u16::try_from(header.grid_columns))
        else {
            return Err((12, 0));
        };
        let stated = 5 + 2 * u64::from(rows) * u64::from(columns);
        let first_rule = rule_of(&passed.records) == Some(FIRST);
        if !has_scores(header) || !first_rule || u32::try_from(stated).is_err() {
            return Err((12, 0));
        }
        let scores = scores(self.file, passed, compressor)?;
        if room < 4 + stated {
            return Err((13, 0));
        }
        Ok(Sheet { rows, columns, scores }.bytes())
    }
}

/// Those of the grid by rows, or the first refusal. The cells of a tile are kept for the next that
/// lies in it.
fn scores(file: &[u8], passed: &Passed, compressor: u32) -> Result<Vec<i16>, Answer> {
    let header = &passed.header;
    let mut tiles: HashMap<u64, Cells> = HashMap::new();
    let mut scores = Vec::new();
    for row in 0..header.grid_rows {
        for column in 0..header.grid_columns {
            let spot = Spot { row, column, element: 0 };
            let tile = tile_of(header, spot);
            let whole =
                tiles.entry(tile).or_insert_with(|| cells(file, passed, tile, 0, compressor));
            let score = match whole {
                Cells::Stored { bits, .. } | Cells::Unpacked { bits, .. } => {
                    bits[number_inside(header, spot) as usize] as i16
                }
                Cells::Absent => UNREAD,
                Cells::Refused(refusal) => return Err(*refusal),
            };
            if !is_score(score) {
                return Err((12, 0));
            }
            scores.push(score);
        }
    }
    Ok(scores)
}
