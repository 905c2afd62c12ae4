//! Fronts that fit a sheet, sheets for them, and pages of scores at random.

use gvrs_tests::build::{build, Built};
use gvrs_tests::page::{Body, Element, Filler, Page, Tile, SHORT};
use gvrs_tests::prng::Prng;
use gvrs_tests::random_page::{name, put_anywhere, text_of};
use gvrs_tests::second::sheets::{Sheet, UNREAD};

use super::ask::MoveIn;
use crate::deeds::scored::packed;
use crate::face::mixed::{malformed, out_of_range};
use crate::lay_downs::draft::Draft;

/// Scores at the edges of what a sheet may have, and others.
pub const SCORES: [i16; 7] = [UNREAD, 0, 1, 900, 950, 999, 1000];
/// Next to them, at both ends, and with their bytes exchanged a score.
pub const NO_SCORES: [i16; 7] = [-2, 1001, i16::MIN, i16::MAX, -256, 0x0200u16 as i16 + 1000, 1024];

/// A page of one to sixteen tiles and no tile record, with one element, a Short whose fill is -1.
pub fn empty_page(random: &mut Prng) -> Page {
    let tile = match random.below(6) {
        0 => [1, 1],
        1 => [1, random.between(2, 24)],
        2 => [random.between(2, 24), 1],
        _ => [random.between(2, 7), random.between(2, 7)],
    };
    let grid = tile.map(|side| (random.between(1, 4) - 1) * side + random.between(1, side));
    of_sides(grid.map(|side| side as u32), tile.map(|side| side as u32), random)
}

pub fn of_sides(grid: [u32; 2], tile: [u32; 2], random: &mut Prng) -> Page {
    let mut page = Page::of_sides(grid, tile);
    page.checksums = !random.one_in(4);
    page.filler = if random.one_in(2) { Filler::Zero } else { Filler::Junk(random.long()) };
    page.elements = vec![score_element(random)];
    page
}

/// A Short whose fill is -1; what else it says is none of a sheet's business.
fn score_element(random: &mut Prng) -> Element {
    let mut element = Element::new(SHORT, &name(random));
    let [label, unit] = [random.below(9), random.below(9)];
    element.label = text_of(label, random);
    element.unit = text_of(unit, random);
    element.set_range_and_fill(random.integer() & 0xffff, 1000, UNREAD as u16 as u32);
    element
}

/// The page's front, as a lay-down takes it.
pub fn front(page: &Page, random: &mut Prng) -> Vec<u8> {
    Draft::new(page.clone(), Vec::new(), random).given.front
}

/// A sheet of the page's grid; one in three tiles is all -1 in it.
pub fn sheet(page: &Page, random: &mut Prng) -> Sheet {
    let across = page.tiles_across();
    let unread: Vec<bool> = (0..page.tile_count()).map(|_| random.one_in(3)).collect();
    let mut scores = Vec::new();
    for row in 0..page.grid_rows {
        for column in 0..page.grid_columns {
            let tile =
                (row / page.tile_rows) as usize * across + (column / page.tile_columns) as usize;
            scores.push(if unread[tile] { UNREAD } else { random.pick(&SCORES) });
        }
    }
    Sheet { rows: page.grid_rows as u16, columns: page.grid_columns as u16, scores }
}

/// A move that nothing refuses, with room.
pub fn move_in(random: &mut Prng) -> (Page, MoveIn) {
    let page = empty_page(random);
    let given = MoveIn {
        front: front(&page, random),
        time: random.long().max(1),
        sheet: sheet(&page, random).bytes(),
    };
    (page, given)
}

/// A page of scores.
pub struct Scored {
    pub page: Page,
    pub built: Built,
    /// The compressor index that is named.
    pub compressor: u32,
}

/// What the tiles of a page are like: one in so many is absent, one in so many refused, one cell in so
/// many no score; of 0 none.
#[derive(Clone, Copy)]
pub struct Temper {
    pub absent: usize,
    pub refused: usize,
    pub wrong: usize,
}

impl Scored {
    pub fn new(page: Page, temper: Temper, random: &mut Prng) -> Scored {
        let mut page = page;
        let index = random.byte();
        for tile in 0..page.tile_count() as u32 {
            if !one_in(temper.absent, random) {
                let contents = vec![content(&page, tile, index, temper, random)];
                put_anywhere(&mut page, Body::Tile(Tile { index: tile, contents }), random);
            }
        }
        Scored { built: build(&page), page, compressor: u32::from(index) }
    }
}

fn one_in(times: usize, random: &mut Prng) -> bool {
    times > 0 && random.one_in(times)
}

fn content(page: &Page, tile: u32, index: u8, temper: Temper, random: &mut Prng) -> Vec<u8> {
    if one_in(temper.refused, random) {
        return refused(page, index, random);
    }
    let scores = scores(page, tile, temper.wrong, random);
    let small = if random.one_in(2) { packed(page, &scores, index, random) } else { None };
    small.unwrap_or_else(|| scores.iter().flat_map(|score| score.to_le_bytes()).collect())
}

/// The scores of a tile, row by row; past the grid anything. One in four tiles is all -1 in the grid.
fn scores(page: &Page, tile: u32, wrong: usize, random: &mut Prng) -> Vec<i16> {
    let across = page.tiles_across() as u32;
    let (top, left) = (tile / across * page.tile_rows, tile % across * page.tile_columns);
    let unread = random.one_in(4);
    let mut scores = Vec::new();
    for row in top..top + page.tile_rows {
        for column in left..left + page.tile_columns {
            let outside = row >= page.grid_rows || column >= page.grid_columns;
            scores.push(match (outside, unread) {
                (true, _) => random.pick(&NO_SCORES),
                (false, _) if one_in(wrong, random) => random.pick(&NO_SCORES),
                (false, true) => UNREAD,
                (false, false) => random.pick(&SCORES),
            });
        }
    }
    scores
}

/// 11: by another index. 14: malformed, or a Short out of range.
fn refused(page: &Page, index: u8, random: &mut Prng) -> Vec<u8> {
    let cells = (page.tile_rows * page.tile_columns) as usize;
    match random.below(4) {
        0 | 1 => {
            let other = index.wrapping_add(random.between(1, 255) as u8);
            packed(page, &vec![950; cells], other, random).unwrap_or(vec![other; 1])
        }
        2 => malformed(page, 0, index, random),
        _ => {
            let good = out_of_range(page, SHORT, random).map(|mut good| {
                good.packed.index = index;
                good.packed.bytes()
            });
            good.unwrap_or(vec![index; 1])
        }
    }
}
