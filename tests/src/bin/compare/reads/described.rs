//! What a description says of a cell, the other way round from a read: from the tile and the place
//! inside it to row and column, and from the builder's fields to the bytes.

use std::collections::HashMap;

use gvrs_tests::build::{Built, Field};
use gvrs_tests::page::{Body, Element, Page, INTEGER_CODED, SHORT};
use gvrs_tests::prng::Prng;
use gvrs_tests::second::cells::{Cell, Content, Location, Spot};

/// A cell by tile row, tile column, row and column inside the tile, and element.
#[derive(Clone, Copy)]
pub struct Inside {
    pub tile: (usize, usize),
    pub cell: (usize, usize),
    pub element: usize,
}

pub struct Described<'a> {
    pub page: &'a Page,
    pub built: &'a Built,
    /// The first tile record of each index: its start and its contents.
    tiles: HashMap<usize, (usize, Vec<Field>)>,
}

impl<'a> Described<'a> {
    pub fn new(page: &'a Page, built: &'a Built) -> Described<'a> {
        let mut contents: Vec<Vec<Field>> = vec![Vec::new(); page.records.len()];
        for field in built.fields.iter().filter(|field| field.name == "content") {
            contents[field.owner.expect("a tile record")].push(*field);
        }
        let mut tiles = HashMap::new();
        for (number, contents) in contents.into_iter().enumerate() {
            if let Body::Tile(tile) = &page.records[number].body {
                tiles.entry(tile.index as usize).or_insert((built.starts[number], contents));
            }
        }
        Described { page, built, tiles }
    }

    pub fn index(&self, (row, column): (usize, usize)) -> usize {
        row * self.page.tiles_across() + column
    }

    /// Row and column, unless the tile reaches over the grid's edge there.
    pub fn spot(&self, inside: Inside) -> Option<Spot> {
        let page = self.page;
        let row = inside.tile.0 * page.tile_rows as usize + inside.cell.0;
        let column = inside.tile.1 * page.tile_columns as usize + inside.cell.1;
        let in_grid = row < page.grid_rows as usize && column < page.grid_columns as usize;
        let spot = Spot { row: row as u64, column: column as u64, element: inside.element as u64 };
        in_grid.then_some(spot)
    }

    pub fn cell(&self, inside: Inside) -> Cell {
        let element = &self.page.elements[inside.element];
        let type_code = element.type_code;
        let location = self.location(inside);
        match self.content(self.index(inside.tile), inside.element) {
            Content::Absent => Cell::Fill { type_code, bits: fill(element), location },
            Content::Refused(refusal) => Cell::Refused(refusal),
            Content::Present { start, .. } => {
                let place = (start + location.inside * element.cell_size() as u64) as usize;
                let bits = self.bits(place, element);
                Cell::Stored { type_code, bits, place: place as u64, location }
            }
        }
    }

    /// Its tile's index, and its number inside the tile.
    pub fn location(&self, inside: Inside) -> Location {
        let (row, column) = inside.cell;
        Location {
            tile: self.index(inside.tile) as u64,
            inside: (row * self.page.tile_columns as usize + column) as u64,
        }
    }

    pub fn content(&self, tile: usize, element: usize) -> Content {
        let Some((record_start, contents)) = self.tiles.get(&tile) else {
            return Content::Absent;
        };
        let field = &contents[element];
        if field.width < self.page.uncompressed_size(element) {
            return Content::Refused((11, *record_start as u64));
        }
        Content::Present { start: field.at as u64, length: field.width as u64 }
    }

    fn bits(&self, place: usize, element: &Element) -> u32 {
        let mut four = [0; 4];
        let size = element.cell_size();
        four[..size].copy_from_slice(&self.built.bytes[place..place + size]);
        u32::from_le_bytes(four)
    }

    /// True if some of the tile lies outside the grid.
    pub fn over_the_edge(&self, tile: (usize, usize)) -> bool {
        let (rows, columns) = (self.page.tile_rows as usize, self.page.tile_columns as usize);
        (tile.0 + 1) * rows > self.page.grid_rows as usize
            || (tile.1 + 1) * columns > self.page.grid_columns as usize
    }

    /// The lengths of an element's neighbours in its tile record, if there is one.
    pub fn contents_of(&self, tile: usize) -> Option<&[Field]> {
        self.tiles.get(&tile).map(|(_, contents)| contents.as_slice())
    }

    /// A cell of the grid at random, mostly of a tile that has a record.
    pub fn at_random(&self, random: &mut Prng) -> Inside {
        let page = self.page;
        let mut stored: Vec<usize> = self.tiles.keys().copied().collect();
        stored.sort_unstable();
        loop {
            let tile = match random.pick_any(&stored) {
                Some(index) if !random.one_in(4) => {
                    (index / page.tiles_across(), index % page.tiles_across())
                }
                _ => (random.below(page.tiles_down()), random.below(page.tiles_across())),
            };
            let row = side_at_random(page.tile_rows, random);
            let column = side_at_random(page.tile_columns, random);
            let element = random.below(page.elements.len());
            let inside = Inside { tile, cell: (row, column), element };
            if self.spot(inside).is_some() {
                return inside;
            }
        }
    }

    /// Every cell of the grid, tile by tile.
    pub fn all(&self) -> Vec<Inside> {
        let page = self.page;
        let mut all = Vec::new();
        for tile in pairs(page.tiles_down(), page.tiles_across()) {
            for cell in pairs(page.tile_rows as usize, page.tile_columns as usize) {
                for element in 0..page.elements.len() {
                    all.push(Inside { tile, cell, element });
                }
            }
        }
        all.retain(|inside| self.spot(*inside).is_some());
        all
    }
}

/// A number below the side, often its first or last.
fn side_at_random(side: u32, random: &mut Prng) -> usize {
    match random.below(6) {
        0 => 0,
        1 => side as usize - 1,
        _ => random.below(side as usize),
    }
}

fn pairs(rows: usize, columns: usize) -> impl Iterator<Item = (usize, usize)> {
    (0..rows).flat_map(move |row| (0..columns).map(move |column| (row, column)))
}

/// The fill of the description's block.
pub fn fill(element: &Element) -> u32 {
    let at = if element.type_code == INTEGER_CODED { 28 } else { 8 };
    let width = if element.type_code == SHORT { 2 } else { 4 };
    let mut four = [0; 4];
    four[..width].copy_from_slice(&element.range_and_fill[at..at + width]);
    u32::from_le_bytes(four)
}
