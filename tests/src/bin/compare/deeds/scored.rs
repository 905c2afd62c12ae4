//! Pages of scores at random, by either rule, whose tiles are stored, absent, packed by the index that is named and
//! by another, malformed, and with a Short out of range; and what their descriptions say of a
//! rectangle.

use std::collections::HashMap;

use gvrs_tests::build::{build, bytes_of, Built};
use gvrs_tests::page::{Body, Element, Filler, Metadata, Page, Tile, SHORT};
use gvrs_tests::prng::Prng;
use gvrs_tests::random_page::{put_anywhere, text_of};
use gvrs_tests::second::chain::{METADATA, METADATA_DIRECTORY};
use gvrs_tests::second::check::Answer;
use gvrs_tests::second::deeds::{
    Deed, Rule, CERTAIN, DOUBTFUL, FIRST, NO_SCORE, SCORE_RULE, SECOND, UNREAD,
};
use gvrs_tests::second::predict::PREDICTORS;
use gvrs_tests::second::rectangles::Rectangle;

use crate::face::made::inside;
use crate::face::mixed::{malformed, out_of_range, position};
use crate::face::sample_sums::page;
use crate::packed::contents::{of_cells, Form};
use crate::reads::described::{fill, Described, Inside};

/// Scores next to what decides by a rule, and at both ends.
pub fn edges(Rule { mark, scale }: Rule) -> [i16; 11] {
    [mark - 1, mark, mark + 1, scale - 1, scale, scale + 1, -1, 0, 1, i16::MAX, i16::MIN]
}

/// Scores that are certain.
fn good(rule: Rule) -> [i16; 6] {
    let Rule { mark, scale } = rule;
    [mark, mark + 1, middle(rule), middle(rule), scale - 1, scale]
}

/// 950 or 9,750.
fn middle(rule: Rule) -> i16 {
    (rule.mark + rule.scale) / 2
}

fn fills(rule: Rule) -> [i16; 8] {
    [middle(rule), middle(rule), rule.mark, rule.scale, 0, -1, i16::MIN, i16::MAX]
}

/// Puts metadata records of these names and IDs anywhere into a page, and makes its directory list all
/// that there are. What else they hold is none of a rule's business.
pub fn say(page: &mut Page, keys: &[(&[u8], u32)], random: &mut Prng) {
    for (name, id) in keys {
        let mut metadata = Metadata::new(name, *id);
        metadata.data_type = random.below(10) as u8;
        let [content, description] = [random.below(30), random.below(30)];
        metadata.content = random.bytes(content);
        metadata.description = text_of(description, random);
        put_anywhere(page, Body::Metadata(metadata), random);
    }
    list_metadata(page, random);
}

/// Makes the metadata directory list all metadata records, in any order; puts one where there is none.
pub fn list_metadata(page: &mut Page, random: &mut Prng) {
    if page.of_type(METADATA_DIRECTORY).is_empty() {
        put_anywhere(page, Body::MetadataDirectory(Vec::new()), random);
    }
    let mut records = page.of_type(METADATA);
    random.shuffle(&mut records);
    for record in &mut page.records {
        if let Body::MetadataDirectory(listed) = &mut record.body {
            listed.clone_from(&records);
        }
    }
}

pub struct Scored {
    pub page: Page,
    pub built: Built,
    /// The rule that the page says.
    pub rule: Rule,
    /// The compressor index that is named.
    pub compressor: u32,
    /// The Short elements, by tile index and element.
    kept: HashMap<(u32, usize), Kept>,
}

/// What a read with that index gives of a Short element in a tile.
pub enum Kept {
    Stored(Vec<i16>),
    Unpacked(Vec<i16>),
    Refused(u32),
}

/// What the tiles of a page are like.
#[derive(Clone, Copy)]
struct Temper {
    rule: Rule,
    /// One in so many tiles is absent, one in so many contents refused; of 0 none.
    absent: usize,
    refused: usize,
    scores: Scores,
    /// Cells past the grid's edge have other scores than those inside.
    other_outside: bool,
}

/// What the scores of a page are.
#[derive(Clone, Copy)]
enum Scores {
    Good,
    /// Certain ones but for a few, which are this.
    But(i16),
    /// Next to what decides, at both ends, and the fill.
    Edges,
    Any,
}

/// The cells of a rectangle by what they are.
pub struct Account {
    pub rule: Rule,
    pub stored: Vec<i16>,
    pub unpacked: Vec<i16>,
    pub fills: u64,
    /// Where each refused cell stands by rows, and its refusal.
    pub refused: Vec<(usize, Answer)>,
}

impl Scored {
    pub fn at_random(random: &mut Prng) -> Scored {
        let mut page = empty_page(random);
        let rule = rule(&mut page, random);
        page.elements = elements(rule, random);
        let temper = Temper::at_random(rule, random);
        let index = random.byte();
        let mut kept = HashMap::new();
        for tile in 0..page.tile_count() as u32 {
            if !one_in(temper.absent, random) {
                let contents = contents(&page, tile, index, temper, &mut kept, random);
                put_anywhere(&mut page, Body::Tile(Tile { index: tile, contents }), random);
            }
        }
        Scored { built: build(&page), page, rule, compressor: u32::from(index), kept }
    }

    pub fn described(&self) -> Described<'_> {
        Described::new(&self.page, &self.built)
    }

    /// A rectangle of the grid and of a Short element.
    pub fn rectangle(&self, most: u64, random: &mut Prng) -> Rectangle {
        let element = random.pick(&self.of_type(true)) as u64;
        Rectangle { element, ..inside(&self.described(), most, random) }
    }

    /// The elements that are Shorts, or the others.
    pub fn of_type(&self, short: bool) -> Vec<usize> {
        let wanted = |at: &usize| (self.page.elements[*at].type_code == SHORT) == short;
        (0..self.page.elements.len()).filter(wanted).collect()
    }

    /// What the description says of a rectangle of the grid and of a Short element, the other way
    /// round from a read: from the cells of each tile to their place in the rectangle.
    pub fn account(&self, rectangle: Rectangle) -> Account {
        let described = self.described();
        let element = rectangle.element as usize;
        let (mut stored, mut unpacked, mut refused) = (Vec::new(), Vec::new(), Vec::new());
        for (tile, kept) in self.kept(rectangle.element) {
            let place = self.record_start(tile);
            for (number, inside) in self.insides(tile, element).enumerate() {
                let spot = described.spot(inside);
                let Some(at) = spot.and_then(|spot| position(rectangle, spot)) else {
                    continue;
                };
                match kept {
                    Kept::Stored(scores) => stored.push(scores[number]),
                    Kept::Unpacked(scores) => unpacked.push(scores[number]),
                    Kept::Refused(number) => refused.push((at, (*number, place))),
                }
            }
        }
        let read = stored.len() + unpacked.len() + refused.len();
        let fills = rectangle.cells() as u64 - read as u64;
        Account { rule: self.rule, stored, unpacked, fills, refused }
    }

    /// The contents of one element, by tile index.
    pub fn kept(&self, element: u64) -> impl Iterator<Item = (u32, &Kept)> {
        let of_it = move |((_, of), _): &(&(u32, usize), &Kept)| *of as u64 == element;
        self.kept.iter().filter(of_it).map(|((tile, _), kept)| (*tile, kept))
    }

    fn record_start(&self, index: u32) -> u64 {
        let of_tile = |at: &usize| match &self.page.records[*at].body {
            Body::Tile(tile) => tile.index == index,
            _ => false,
        };
        let record = (0..self.page.records.len()).find(of_tile).expect("a record of that tile");
        self.built.starts[record] as u64
    }

    /// The cells of a tile, row by row, past the grid's edge too.
    fn insides(&self, index: u32, element: usize) -> impl Iterator<Item = Inside> {
        let across = self.page.tiles_across();
        let tile = (index as usize / across, index as usize % across);
        let (rows, columns) = (self.page.tile_rows as usize, self.page.tile_columns as usize);
        (0..rows * columns).map(move |number| {
            let cell = (number / columns, number % columns);
            Inside { tile, cell, element }
        })
    }
}

impl Account {
    /// All scores.
    pub fn scores(&self) -> Vec<i16> {
        [&self.stored[..], &self.unpacked].concat()
    }

    pub fn deed(&self) -> Deed {
        match self.refused.iter().min() {
            Some((_, refusal)) => Deed::Refused(*refusal),
            None => graded(self.rule, self.fills, self.scores()),
        }
    }
}

/// From the number of fills and all scores, in any order. Each -1 is a fill.
pub fn graded(rule: Rule, fills: u64, mut scores: Vec<i16>) -> Deed {
    let before = scores.len();
    scores.retain(|score| *score != NO_SCORE);
    let fills = fills + (before - scores.len()) as u64;
    scores.sort_unstable();
    let lowest = scores.first().copied();
    let grade = match (lowest, scores.last()) {
        _ if fills > 0 => UNREAD,
        (Some(low), Some(high)) if rule.mark <= low && *high <= rule.scale => CERTAIN,
        _ => DOUBTFUL,
    };
    Deed::Graded { rule, grade, fills, lowest }
}

impl Temper {
    fn at_random(rule: Rule, random: &mut Prng) -> Temper {
        let odds = [[0, 0], [0, 0], [8, 0], [3, 0], [0, 12], [6, 6], [3, 3]];
        let [absent, refused] = random.pick(&odds);
        let scores = match random.below(6) {
            0 | 1 => Scores::Good,
            2 | 3 => Scores::But(random.pick(&edges(rule))),
            4 => Scores::Edges,
            _ => Scores::Any,
        };
        Temper { rule, absent, refused, scores, other_outside: random.one_in(2) }
    }
}

impl Scores {
    fn one(self, rule: Rule, fill: i16, random: &mut Prng) -> i16 {
        match self {
            Scores::But(score) if random.one_in(30) => score,
            Scores::Good | Scores::But(_) => random.pick(&good(rule)),
            Scores::Edges if random.one_in(6) => fill,
            Scores::Edges => random.pick(&edges(rule)),
            Scores::Any => random.long() as i16,
        }
    }
}

fn one_in(times: usize, random: &mut Prng) -> bool {
    times > 0 && random.one_in(times)
}

/// Of one to sixteen tiles, a directory of the whole grid and no tile record.
fn empty_page(random: &mut Prng) -> Page {
    let tile = match random.below(6) {
        0 => [1, 1],
        1 => [1, random.between(2, 24)],
        2 => [random.between(2, 24), 1],
        3 => [random.between(8, 16), random.between(8, 16)],
        _ => [random.between(2, 7), random.between(2, 7)],
    };
    let grid = tile.map(|side| (random.between(1, 4) - 1) * side + random.between(1, side));
    let mut page = Page::of_sides(grid.map(|side| side as u32), tile.map(|side| side as u32));
    page.checksums = !random.one_in(4);
    page.filler = if random.one_in(2) { Filler::Zero } else { Filler::Junk(random.long()) };
    if let Body::TileDirectory(directory) = &mut page.records[0].body {
        directory.standard = u8::from(random.one_in(3));
    }
    page
}

/// Makes a page say a rule, by a record or by none, with records of other names or without.
fn rule(page: &mut Page, random: &mut Prng) -> Rule {
    let (rule, id) = random.pick(&[(FIRST, None), (FIRST, Some(1)), (SECOND, Some(2))]);
    let mut keys: Vec<(&[u8], u32)> = Vec::new();
    for _ in 0..random.below(3) {
        keys.push((&b"reader"[..], keys.len() as u32));
    }
    keys.extend(id.map(|id| (SCORE_RULE, id)));
    if !keys.is_empty() {
        say(page, &keys, random);
    }
    rule
}

/// One Short at least, and up to three of any type before and behind it.
fn elements(rule: Rule, random: &mut Prng) -> Vec<Element> {
    let mut types: Vec<u8> = (0..random.below(4)).map(|_| random.below(4) as u8).collect();
    types.insert(random.between(0, types.len()), SHORT);
    let named = |(number, type_code)| Element::new(type_code, &[b'a' + number]);
    let mut elements: Vec<Element> = (0..).zip(types).map(named).collect();
    for element in &mut elements {
        element.set_range_and_fill(0, 1000, random.pick(&fills(rule)) as u16 as u32);
    }
    elements
}

fn contents(
    page: &Page,
    tile: u32,
    index: u8,
    temper: Temper,
    kept: &mut HashMap<(u32, usize), Kept>,
    random: &mut Prng,
) -> Vec<Vec<u8>> {
    let mut contents = Vec::new();
    for element in 0..page.elements.len() {
        if page.elements[element].type_code != SHORT {
            contents.push(other_content(page, element, index, random));
            continue;
        }
        let (content, what) = if one_in(temper.refused, random) {
            refused(page, element, index, random)
        } else {
            readable(page, element, index, scores(page, tile, element, temper, random), random)
        };
        contents.push(content);
        kept.insert((tile, element), what);
    }
    contents
}

/// Of an element that no deed is about: its bytes, or such that would be refused.
fn other_content(page: &Page, element: usize, index: u8, random: &mut Prng) -> Vec<u8> {
    if random.one_in(3) {
        malformed(page, element, index, random)
    } else {
        random.bytes(page.uncompressed_size(element))
    }
}

/// The scores of a tile, row by row.
fn scores(page: &Page, tile: u32, element: usize, temper: Temper, random: &mut Prng) -> Vec<i16> {
    let fill = fill(&page.elements[element]) as i16;
    let across = page.tiles_across() as u32;
    let (first_row, first_column) =
        (tile / across * page.tile_rows, tile % across * page.tile_columns);
    let mut scores = Vec::new();
    for row in first_row..first_row + page.tile_rows {
        for column in first_column..first_column + page.tile_columns {
            let outside = row >= page.grid_rows || column >= page.grid_columns;
            scores.push(match outside && temper.other_outside {
                true => random.pick(&[i16::MIN, temper.rule.mark - 1, temper.rule.scale + 1]),
                false => temper.scores.one(temper.rule, fill, random),
            });
        }
    }
    scores
}

/// Packed, if that is shorter, or stored.
fn readable(
    page: &Page,
    element: usize,
    index: u8,
    scores: Vec<i16>,
    random: &mut Prng,
) -> (Vec<u8>, Kept) {
    let packed = if random.one_in(2) { packed(page, &scores, index, random) } else { None };
    match packed {
        Some(content) => (content, Kept::Unpacked(scores)),
        None => {
            let content: Vec<u8> = scores.iter().flat_map(|score| score.to_le_bytes()).collect();
            assert_eq!(content.len(), page.uncompressed_size(element), "L is U");
            (content, Kept::Stored(scores))
        }
    }
}

/// A content of these scores, if it is shorter than they are.
pub fn packed(page: &Page, scores: &[i16], index: u8, random: &mut Prng) -> Option<Vec<u8>> {
    let tile = [page.tile_rows, page.tile_columns];
    let cells = scores.iter().map(|score| i32::from(*score)).collect();
    let predictor = random.pick(&PREDICTORS);
    let form = random.pick(&[Form::Huffman, Form::Flat(1), Form::Comb(1, 5)]);
    let mut good = of_cells(SHORT, tile, cells, predictor, form, random)?;
    good.packed.index = index;
    Some(good.packed.bytes())
}

/// The file of a page of one packed tile, as many rows as columns.
pub fn packed_page(side: u32, scores: &[i16], index: u8, random: &mut Prng) -> Vec<u8> {
    let mut page = page([side; 2], [side; 2], &[(0, scores)]);
    let content = packed(&page, scores, index, random).expect("scores that can be packed");
    if let Body::Tile(tile) = &mut page.records[0].body {
        tile.contents[0] = content;
    }
    bytes_of(&page)
}

/// 11: good scores by another index. 14: malformed, or a Short out of range.
fn refused(page: &Page, element: usize, index: u8, random: &mut Prng) -> (Vec<u8>, Kept) {
    let cells = (page.tile_rows * page.tile_columns) as usize;
    match random.below(4) {
        0 | 1 => {
            let other = index.wrapping_add(random.between(1, 255) as u8);
            let packed = packed(page, &vec![950; cells], other, random);
            (packed.unwrap_or(vec![other; 1]), Kept::Refused(11))
        }
        2 => (malformed(page, element, index, random), Kept::Refused(14)),
        _ => {
            let content = out_of_range(page, SHORT, random).map(|mut good| {
                good.packed.index = index;
                good.packed.bytes()
            });
            (content.unwrap_or(vec![index; 1]), Kept::Refused(14))
        }
    }
}
