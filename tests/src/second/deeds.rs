//! A rectangle of scores judged (Req 07): certain, doubtful or unread, by the rule that the page says
//! (Req 08).

use std::collections::HashMap;

use super::bodies::metadata_body;
use super::cells::{cells, element, number_inside, tile_of};
use super::cells::{Cells, Opened};
use super::chain::{Record, METADATA};
use super::check::{Answer, Passed};
use super::rectangles::Rectangle;

/// G Table 2.
const SHORT: u8 = 3;

pub const CERTAIN: u32 = 64;
pub const DOUBTFUL: u32 = 65;
pub const UNREAD: u32 = 66;

/// The scores that are certain: from the mark to the scale.
#[derive(Clone, Copy, Debug, PartialEq)]
pub struct Rule {
    pub mark: i16,
    pub scale: i16,
}

/// Req 07: "scores in thousandths", "from 900 to 1000".
pub const FIRST: Rule = Rule { mark: 900, scale: 1000 };
/// Req 08: "New models count in ten-thousandths, certain from 9,500 to 10,000."
pub const SECOND: Rule = Rule { mark: 9_500, scale: 10_000 };

/// Req 13: "From now on the deeds product counts a stored -1 as a fill cell, never a score, under both
/// rules." Unpacked ones too (reading 10).
pub const NO_SCORE: i16 = -1;

impl Rule {
    pub fn is_certain(self, score: i16) -> bool {
        (self.mark..=self.scale).contains(&score)
    }
}

/// The name of the records that say the rule.
pub const SCORE_RULE: &[u8] = b"score_rule";

/// Req 08: "A page says so by a metadata record named `score_rule` with record ID 2; ID 1 or no such
/// record means the first rule; any other ID under that name, or both, is 12".
pub fn rule_of(records: &[Record]) -> Option<Rule> {
    let of_type = records.iter().filter(|record| record.record_type == METADATA);
    let named = of_type.filter_map(metadata_body).filter(|body| body.name == SCORE_RULE);
    let ids: Vec<u32> = named.map(|body| body.id).collect();
    let (one, two) = (ids.contains(&1), ids.contains(&2));
    let other = ids.iter().any(|id| *id != 1 && *id != 2);
    match (other, one, two) {
        (true, _, _) | (_, true, true) => None,
        (false, false, true) => Some(SECOND),
        (false, _, false) => Some(FIRST),
    }
}

/// The answer for a rectangle of scores.
#[derive(Clone, Copy, Debug, PartialEq)]
pub enum Deed {
    /// The grade is one of the three numbers. No lowest score where every cell is fill or -1 (Req 13,
    /// reading 10).
    Graded {
        rule: Rule,
        grade: u32,
        fills: u64,
        lowest: Option<i16>,
    },
    Refused(Answer),
}

impl Deed {
    /// By the first rule.
    pub fn by_first(grade: u32, fills: u64, lowest: Option<i16>) -> Deed {
        Deed::Graded { rule: FIRST, grade, fills, lowest }
    }

    /// As `gvrs_deed` gives it: the number of fills, 1 where there is a lowest score, its 16 bits, the
    /// scale. Of a refusal the place; there is no lowest score then, and no scale.
    pub fn as_numbers(&self) -> (u32, [u64; 4]) {
        match *self {
            Deed::Graded { rule, grade, fills, lowest } => {
                let [any, bits] = lowest.map_or([0, 0], |score| [1, u64::from(score as u16)]);
                (grade, [fills, any, bits, rule.scale as u64])
            }
            Deed::Refused((number, place)) => (number, [place, 0, 0, 0]),
        }
    }
}

impl Opened<'_> {
    /// Req 07: "The check's refusals come first. An element number the page lacks, or a rectangle
    /// whose start plus side passes the grid's, is 10; then an empty rectangle or another element
    /// type is 12". Req 08's 12 is "beside Req 07's".
    pub fn deed(&self, rectangle: Rectangle, compressor: u32) -> Deed {
        let passed = match &self.passed {
            Ok(passed) => passed,
            Err(refusal) => return Deed::Refused(*refusal),
        };
        let Some(element) = element(&passed.header, rectangle.element) else {
            return Deed::Refused((10, 0));
        };
        if !rectangle.ends_inside(&passed.header) {
            return Deed::Refused((10, 0));
        }
        if rectangle.cells() == 0 || element.type_code != SHORT {
            return Deed::Refused((12, 0));
        }
        match rule_of(&passed.records) {
            Some(rule) => judged(self.file, passed, rectangle, compressor, rule),
            None => Deed::Refused((12, 0)),
        }
    }
}

/// Cell by cell: "11 or 14 from the first such cell in row order", also behind a fill (reading 5).
/// "Unread if any cell is fill. Else certain exactly if every score is from 900 to 1000; else
/// doubtful", with the rule's numbers. The cells of a tile are kept for the next that lies in it.
fn judged(file: &[u8], passed: &Passed, rectangle: Rectangle, compressor: u32, rule: Rule) -> Deed {
    let header = &passed.header;
    let mut tiles: HashMap<u64, Cells> = HashMap::new();
    let (mut fills, mut all_certain, mut lowest) = (0, true, None);
    for spot in rectangle.spots() {
        let tile = tile_of(header, spot);
        let whole = tiles
            .entry(tile)
            .or_insert_with(|| cells(file, passed, tile, rectangle.element, compressor));
        match whole {
            Cells::Stored { bits, .. } | Cells::Unpacked { bits, .. } => {
                let score = bits[number_inside(header, spot) as usize] as i16;
                if score == NO_SCORE {
                    fills += 1;
                    continue;
                }
                all_certain &= rule.is_certain(score);
                lowest = Some(lowest.map_or(score, |low: i16| low.min(score)));
            }
            Cells::Absent => fills += 1,
            Cells::Refused(refusal) => return Deed::Refused(*refusal),
        }
    }
    let grade = match (fills, all_certain) {
        (1.., _) => UNREAD,
        (0, true) => CERTAIN,
        (0, false) => DOUBTFUL,
    };
    Deed::Graded { rule, grade, fills, lowest }
}
