//! Pages at random whose tiles are stored, absent, packed by the index that is named and by
//! another, and malformed; and what their descriptions say of a rectangle.

use std::collections::HashMap;

use gvrs_tests::build::{build, Built};
use gvrs_tests::page::{Body, Page, FLOAT, INTEGER, SHORT};
use gvrs_tests::prng::Prng;
use gvrs_tests::random_page::random_page;
use gvrs_tests::second::cells::{Cell, Content, Spot, FILL, STORED, UNPACKED};
use gvrs_tests::second::predict::PREDICTORS;
use gvrs_tests::second::rectangles::{Area, Rectangle};

use crate::packed::contents::{good_of, of_cells, Form, Good};
use crate::reads::described::{fill, Described, Inside};

/// Tiles of fewer cells are rarely shorter when packed, and more take long.
const TILE_CELLS: std::ops::RangeInclusive<usize> = 12..=600;

pub struct Mixed {
    pub page: Page,
    pub built: Built,
    /// The compressor index that is named.
    pub compressor: u32,
    /// By tile index and element.
    contents: HashMap<(u32, usize), Kept>,
}

/// What a read with that index gives of an element in a tile.
enum Kept {
    Stored,
    Unpacked(Vec<i32>),
    Refused(u32),
}

impl Mixed {
    /// A page with a tile record or more, of tiles of any shape or of such that can be packed.
    pub fn at_random(random: &mut Prng) -> Mixed {
        let page = loop {
            let page = random_page(random);
            let cells = (page.tile_rows * page.tile_columns) as usize;
            let stored = page.records.iter().any(|record| matches!(record.body, Body::Tile(_)));
            let fits = TILE_CELLS.contains(&cells) || (cells < 12 && random.one_in(6));
            if stored && fits {
                break page;
            }
        };
        Mixed::of(page, random)
    }

    /// A page with other contents in its tile records.
    pub fn of(mut page: Page, random: &mut Prng) -> Mixed {
        let index = random.byte();
        let mut contents = HashMap::new();
        let described = page.clone();
        for record in &mut page.records {
            if let Body::Tile(tile) = &mut record.body {
                for (element, content) in tile.contents.iter_mut().enumerate() {
                    let (bytes, kept) = content_of(&described, element, index, random);
                    *content = bytes;
                    contents.insert((tile.index, element), kept);
                }
            }
        }
        Mixed { built: build(&page), page, compressor: u32::from(index), contents }
    }

    pub fn described(&self) -> Described<'_> {
        Described::new(&self.page, &self.built)
    }

    /// What the description says of a cell that is read with that index.
    pub fn cell(&self, inside: Inside) -> Cell {
        let (described, element) = (self.described(), inside.element);
        let cell = described.cell(inside);
        let location = described.location(inside);
        let index = location.tile as usize;
        match self.contents.get(&(index as u32, element)) {
            None | Some(Kept::Stored) => cell,
            Some(Kept::Unpacked(values)) => Cell::Unpacked {
                type_code: self.page.elements[element].type_code,
                bits: self.bits(element, values[location.inside as usize]),
                place: described.contents_of(index).expect("a tile record")[element].at as u64,
                location,
            },
            Some(Kept::Refused(number)) => match described.content(index, element) {
                Content::Refused((_, start)) => Cell::Refused((*number, start)),
                content => panic!("a compressed content is {content:?}"),
            },
        }
    }

    /// What the description says of a rectangle of the grid: all fill, but for the cells of each
    /// tile that has a record, from their place in the tile to their place in the rectangle.
    pub fn area(&self, rectangle: Rectangle) -> Area {
        let described = self.described();
        let element = rectangle.element as usize;
        let cells = rectangle.cells() as usize;
        let bits = fill(&self.page.elements[element]);
        let (mut kinds, mut bits) = (vec![FILL; cells], vec![bits; cells]);
        let of_element = self.contents.iter().filter(|((_, of), _)| *of == element);
        for ((tile, _), kept) in of_element {
            for (number, inside) in self.insides(*tile as usize, element).enumerate() {
                let spot = described.spot(inside);
                let Some(at) = spot.and_then(|spot| position(rectangle, spot)) else {
                    continue;
                };
                (kinds[at], bits[at]) = match (kept, described.cell(inside)) {
                    (Kept::Stored, Cell::Stored { bits, .. }) => (STORED, bits),
                    (Kept::Unpacked(values), _) => (UNPACKED, self.bits(element, values[number])),
                    (Kept::Refused(number), _) => (*number, 0),
                    (Kept::Stored, cell) => panic!("a stored tile has {cell:?}"),
                };
            }
        }
        Area::Read { kinds, bits }
    }

    /// The cells of a tile, row by row, past the grid's edge too.
    fn insides(&self, index: usize, element: usize) -> impl Iterator<Item = Inside> {
        let tile = (index / self.page.tiles_across(), index % self.page.tiles_across());
        let (rows, columns) = (self.page.tile_rows as usize, self.page.tile_columns as usize);
        (0..rows * columns).map(move |number| {
            let cell = (number / columns, number % columns);
            Inside { tile, cell, element }
        })
    }

    /// What a value's bits are: 16 of a Short.
    fn bits(&self, element: usize, value: i32) -> u32 {
        let short = self.page.elements[element].type_code == SHORT;
        value as u32 & if short { 0xffff } else { u32::MAX }
    }
}

/// Where a cell of the grid stands in a rectangle, if it is one of its cells.
pub fn position(rectangle: Rectangle, spot: Spot) -> Option<usize> {
    let row = spot.row.checked_sub(rectangle.row)?;
    let column = spot.column.checked_sub(rectangle.column)?;
    let inside = row < rectangle.rows && column < rectangle.columns;
    inside.then_some((row * rectangle.columns + column) as usize)
}

/// The bytes of an element in a tile, and what a read gives of them.
fn content_of(page: &Page, element: usize, index: u8, random: &mut Prng) -> (Vec<u8>, Kept) {
    let type_code = page.elements[element].type_code;
    let refused = |number| Kept::Refused(if type_code == FLOAT { 11 } else { number });
    match random.below(6) {
        0 | 1 => (stored(page, element, random), Kept::Stored),
        2 | 3 => match packed(page, element, random) {
            Some(mut good) => {
                let other = random.one_in(3);
                good.packed.index = if other { index.wrapping_add(1) } else { index };
                let unpacked = Kept::Unpacked(std::mem::take(&mut good.cells));
                let is_11 = other || type_code == FLOAT;
                (good.packed.bytes(), if is_11 { Kept::Refused(11) } else { unpacked })
            }
            None => (stored(page, element, random), Kept::Stored),
        },
        4 => (malformed(page, element, index, random), refused(14)),
        _ => match out_of_range(page, type_code, random) {
            Some(mut good) => {
                good.packed.index = index;
                (good.packed.bytes(), refused(14))
            }
            None => {
                let mut content = malformed(page, element, index, random);
                content[0] = !index;
                (content, refused(11))
            }
        },
    }
}

/// Any bytes, in some of which there are cells that equal the fill.
fn stored(page: &Page, element: usize, random: &mut Prng) -> Vec<u8> {
    let mut content = random.bytes(page.uncompressed_size(element));
    if random.one_in(3) {
        let described = &page.elements[element];
        let bits = fill(described).to_le_bytes();
        let size = described.cell_size();
        for cell in content.chunks_exact_mut(size).filter(|_| random.one_in(2)) {
            cell.copy_from_slice(&bits[..size]);
        }
    }
    content
}

/// Cells at random, or all equal to the fill. Those of a Float are packed as Integers.
fn packed(page: &Page, element: usize, random: &mut Prng) -> Option<Good> {
    let described = &page.elements[element];
    let short = described.type_code == SHORT;
    let type_code = if short { SHORT } else { INTEGER };
    let tile = [page.tile_rows, page.tile_columns];
    let predictor = random.pick(&PREDICTORS);
    let form = random.pick(&[Form::Huffman, Form::Flat(1), Form::Comb(1, 5)]);
    if random.one_in(4) {
        let bits = fill(described);
        let value = if short { i32::from(bits as i16) } else { bits as i32 };
        let cells = vec![value; (tile[0] * tile[1]) as usize];
        return of_cells(type_code, tile, cells, predictor, form, random);
    }
    good_of(type_code, tile, predictor, form, random)
}

/// A packed content without its last byte; or too few bytes to be one.
pub fn malformed(page: &Page, element: usize, index: u8, random: &mut Prng) -> Vec<u8> {
    let cut = packed(page, element, random).map(|mut good| {
        good.packed.index = index;
        let mut content = good.packed.bytes();
        content.pop();
        content
    });
    let few = random.between(1, 10.min(page.uncompressed_size(element) - 1));
    cut.filter(|_| !random.one_in(3)).unwrap_or(vec![index; few])
}

/// Shorts, of which one is none: where the tile has a cell past the grid's edge perhaps that one.
pub fn out_of_range(page: &Page, type_code: u8, random: &mut Prng) -> Option<Good> {
    if type_code != SHORT {
        return None;
    }
    let tile = [page.tile_rows, page.tile_columns];
    let mut cells = vec![900; (tile[0] * tile[1]) as usize];
    let at = if random.one_in(2) { cells.len() - 1 } else { random.below(cells.len()) };
    cells[at] = random.pick(&[32_768, -32_769, 65_536 + 900]);
    of_cells(type_code, tile, cells, random.pick(&PREDICTORS), Form::Huffman, random)
}
