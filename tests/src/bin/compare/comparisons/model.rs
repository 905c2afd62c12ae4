//! Pages described by the values of their cells, and what two descriptions say of a comparison.

use std::collections::{BTreeMap, HashMap};

use gvrs_tests::build::build;
use gvrs_tests::page::{Body, Element, Filler, Page, Tile, FLOAT, SHORT};
use gvrs_tests::prng::Prng;
use gvrs_tests::random_page::put_anywhere;
use gvrs_tests::second::cells::{Location, Spot};
use gvrs_tests::second::compare::{Comparison, Entry, Whose};
use gvrs_tests::second::predict::PREDICTORS;

use crate::face::mixed::{malformed, out_of_range};
use crate::packed::contents::{of_cells, Form};
use crate::reads::described::fill;

#[derive(Clone)]
pub struct Model {
    /// Without tile records.
    pub page: Page,
    /// The compressor index that is named for it, and that its packed contents have.
    pub index: u8,
    /// By tile index, an element after the other.
    pub tiles: BTreeMap<u32, Vec<Part>>,
}

/// An element in a tile: bits row by row, or content that is refused with this number.
#[derive(Clone)]
pub enum Part {
    Stored(Vec<u32>),
    /// Packed where that is shorter, which no Float is.
    Packed(Vec<u32>),
    Unreadable(Vec<u8>, u32),
}

impl Part {
    pub fn values(&mut self) -> Option<&mut Vec<u32>> {
        match self {
            Part::Stored(values) | Part::Packed(values) => Some(values),
            Part::Unreadable(..) => None,
        }
    }
}

/// A model's file, and the start of each tile's record.
pub struct File {
    pub bytes: Vec<u8>,
    starts: HashMap<u32, u64>,
}

/// Floats that a comparison of values would confuse: two NaNs, 0.0 and -0.0.
const FLOATS: [u32; 6] = [0x7fc0_0000, 0x7fc0_0001, 0, 0x8000_0000, 0xff80_0000, 0x3f80_0000];
const FILLS: [u32; 5] = [5, 0, 0xffff, 0x7fc0_0000, 0x8000_0000];

impl Model {
    pub fn at_random(random: &mut Prng) -> Model {
        let page = empty_page(random);
        let mut model = Model { page, index: random.byte(), tiles: BTreeMap::new() };
        let absent = random.pick(&[2, 3, 6, 1000]);
        for tile in 0..model.page.tile_count() as u32 {
            if !random.one_in(absent) {
                model.store(tile, random);
            }
        }
        model
    }

    /// Puts values at random into a tile.
    pub fn store(&mut self, tile: u32, random: &mut Prng) {
        let part = |element| {
            let values = self.values(element, random);
            if random.one_in(2) {
                Part::Packed(values)
            } else {
                Part::Stored(values)
            }
        };
        let parts = (0..self.page.elements.len()).map(part).collect();
        self.tiles.insert(tile, parts);
    }

    /// Near each other, so that they can be packed, but for a few.
    fn values(&self, element: usize, random: &mut Prng) -> Vec<u32> {
        let described = &self.page.elements[element];
        let (base, mask) = (random.integer() % 1000, mask(described.type_code));
        let cells = (self.page.tile_rows * self.page.tile_columns) as usize;
        let one = |random: &mut Prng| match random.below(24) {
            0 => fill(described),
            1 => random.integer() & mask,
            2..=12 if described.type_code == FLOAT => random.pick(&FLOATS),
            _ => base + random.integer() % 3,
        };
        (0..cells).map(|_| one(random)).collect()
    }

    /// Content that no read gives, of an element in a tile that is stored.
    pub fn spoil(&mut self, tile: u32, element: usize, random: &mut Prng) {
        let part = self.unreadable(element, random);
        self.tiles.get_mut(&tile).expect("a stored tile")[element] = part;
    }

    fn unreadable(&self, element: usize, random: &mut Prng) -> Part {
        let type_code = self.page.elements[element].type_code;
        let is_float = type_code == FLOAT;
        match random.below(3) {
            0 => {
                let mut content = malformed(&self.page, element, self.index, random);
                content[0] = !self.index;
                Part::Unreadable(content, 11)
            }
            1 => {
                let content = malformed(&self.page, element, self.index, random);
                Part::Unreadable(content, if is_float { 11 } else { 14 })
            }
            _ => {
                let short = out_of_range(&self.page, type_code, random).map(|mut good| {
                    good.packed.index = self.index;
                    good.packed.bytes()
                });
                let content = short.unwrap_or(vec![self.index; 1]);
                Part::Unreadable(content, if is_float { 11 } else { 14 })
            }
        }
    }

    /// The page with its tile records, anywhere.
    pub fn stored(&self, random: &mut Prng) -> Page {
        let mut page = self.page.clone();
        for (index, parts) in &self.tiles {
            let content = |(element, part)| self.content(element, part, random);
            let contents = parts.iter().enumerate().map(content).collect();
            put_anywhere(&mut page, Body::Tile(Tile { index: *index, contents }), random);
        }
        page
    }

    pub fn file(&self, random: &mut Prng) -> File {
        let page = self.stored(random);
        let built = build(&page);
        let starts = page.records.iter().zip(&built.starts);
        let start = |(record, start): (&gvrs_tests::page::Record, &usize)| match &record.body {
            Body::Tile(tile) => Some((tile.index, *start as u64)),
            _ => None,
        };
        File { starts: starts.filter_map(start).collect(), bytes: built.bytes }
    }

    fn content(&self, element: usize, part: &Part, random: &mut Prng) -> Vec<u8> {
        let type_code = self.page.elements[element].type_code;
        match part {
            Part::Unreadable(content, _) => content.clone(),
            Part::Packed(values) if type_code != FLOAT => self
                .packed(type_code, values, random)
                .unwrap_or_else(|| uncompressed(type_code, values)),
            Part::Packed(values) | Part::Stored(values) => uncompressed(type_code, values),
        }
    }

    fn packed(&self, type_code: u8, values: &[u32], random: &mut Prng) -> Option<Vec<u8>> {
        let tile = [self.page.tile_rows, self.page.tile_columns];
        let signed = |bits: &u32| match type_code {
            SHORT => i32::from(*bits as i16),
            _ => *bits as i32,
        };
        let cells = values.iter().map(signed).collect();
        let form = random.pick(&[Form::Huffman, Form::Flat(1), Form::Comb(1, 5)]);
        let predictor = random.pick(&PREDICTORS);
        let mut good = of_cells(type_code, tile, cells, predictor, form, random)?;
        good.packed.index = self.index;
        Some(good.packed.bytes())
    }

    /// The tile of a cell.
    pub fn tile(&self, spot: Spot) -> u32 {
        let Page { tile_rows, tile_columns, .. } = self.page;
        let (row, column) = (spot.row as u32 / tile_rows, spot.column as u32 / tile_columns);
        row * self.page.tiles_across() as u32 + column
    }

    /// The number of a cell inside its tile.
    fn inside(&self, spot: Spot) -> u32 {
        let Page { tile_rows, tile_columns, .. } = self.page;
        spot.row as u32 % tile_rows * tile_columns + spot.column as u32 % tile_columns
    }

    /// Whether a cell is fill, and its bits; or its refusal.
    fn cell(&self, spot: Spot) -> Result<(bool, u32), u32> {
        let element = spot.element as usize;
        let inside = self.inside(spot);
        match self.tiles.get(&self.tile(spot)).map(|parts| &parts[element]) {
            None => Ok((true, fill(&self.page.elements[element]))),
            Some(Part::Stored(values) | Part::Packed(values)) => {
                Ok((false, values[inside as usize]))
            }
            Some(Part::Unreadable(_, number)) => Err(*number),
        }
    }

    fn is_like(&self, other: &Model) -> bool {
        let sides =
            |page: &Page| [page.grid_rows, page.grid_columns, page.tile_rows, page.tile_columns];
        let types = |page: &Page| -> Vec<u8> {
            page.elements.iter().map(|element| element.type_code).collect()
        };
        sides(&self.page) == sides(&other.page) && types(&self.page) == types(&other.page)
    }
}

fn mask(type_code: u8) -> u32 {
    if type_code == SHORT {
        0xffff
    } else {
        u32::MAX
    }
}

fn uncompressed(type_code: u8, values: &[u32]) -> Vec<u8> {
    let width = if type_code == SHORT { 2 } else { 4 };
    values.iter().flat_map(|bits| bits.to_le_bytes()[..width].to_vec()).collect()
}

/// What the descriptions say, for the cells of the grid sorted by what is asked.
pub fn expected(first: (&Model, &File), second: (&Model, &File)) -> Comparison {
    let (left, right) = (first.0, second.0);
    if !left.is_like(right) {
        return Comparison::Refused(Whose::Neither, (12, 0));
    }
    let (rows, columns) = (u64::from(left.page.grid_rows), u64::from(left.page.grid_columns));
    let elements = left.page.elements.len() as u64;
    let number = |at: u64| Spot {
        row: at / elements / columns,
        column: at / elements % columns,
        element: at % elements,
    };
    let mut entries = Vec::new();
    for spot in (0..rows * columns * elements).map(number) {
        let place = |file: &File| file.starts[&left.tile(spot)];
        match (left.cell(spot), right.cell(spot)) {
            (Err(number), _) => {
                return Comparison::Refused(Whose::First, (number, place(first.1)));
            }
            (_, Err(number)) => {
                return Comparison::Refused(Whose::Second, (number, place(second.1)));
            }
            (Ok(of_first), Ok(of_second)) if of_first != of_second => {
                let (tile, inside) = (u64::from(left.tile(spot)), u64::from(left.inside(spot)));
                entries.push(Entry { spot, location: Location { tile, inside } });
            }
            _ => (),
        }
    }
    Comparison::Differing(entries)
}

/// Of one to sixteen tiles, a directory of the whole grid and no tile record.
fn empty_page(random: &mut Prng) -> Page {
    let tile = match random.below(8) {
        0 => [1, 1],
        1 => [1, random.between(2, 24)],
        2 => [random.between(2, 24), 1],
        _ => [random.between(2, 8), random.between(2, 8)],
    };
    let grid = tile.map(|side| (random.between(1, 4) - 1) * side + random.between(1, side));
    let mut page = Page::of_sides(grid.map(|side| side as u32), tile.map(|side| side as u32));
    page.checksums = !random.one_in(4);
    page.filler = if random.one_in(2) { Filler::Zero } else { Filler::Junk(random.long()) };
    if let Body::TileDirectory(directory) = &mut page.records[0].body {
        directory.standard = u8::from(random.one_in(3));
    }
    page.elements = elements(random);
    page
}

/// One to four of any type; sixteen now and then.
fn elements(random: &mut Prng) -> Vec<Element> {
    let count = if random.one_in(20) { 16 } else { random.between(1, 4) };
    let one = |number: usize| {
        let mut element = Element::new(random.below(4) as u8, &[b'a' + number as u8]);
        let fill = random.pick(&FILLS) & mask(element.type_code);
        element.set_range_and_fill(0, 1000, fill);
        element
    };
    (0..count).map(one).collect()
}
