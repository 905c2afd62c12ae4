//! Pages in which one element's content in one tile is given.

use gvrs_tests::build::{build, Built};
use gvrs_tests::page::{Body, Element, Filler, Page, Tile};
use gvrs_tests::prng::Prng;
use gvrs_tests::random_page::contents;
use gvrs_tests::second::cells::{Cell, Cells, Content, Location, Spot};
use gvrs_tests::second::unpack::Shape;

use crate::reads::ask::{routes, Asked};
use crate::reads::described::{Described, Inside};
use crate::run::Run;

/// Tiles of more cells have one element only, and their page one tile record.
const MOST_BESIDE_OTHERS: u32 = 600;
/// Of tiles that have more cells some are asked for one by one, of very large ones fewer.
const MOST_CELLS: usize = 24;
const VERY_LARGE: usize = 20_000;

pub struct Holder {
    pub page: Page,
    pub built: Built,
    /// The tile by its row and column, and the element.
    pub tile: (usize, usize),
    pub element: usize,
    /// The number of the tile's record.
    pub record: usize,
}

/// What has to come out of a content.
#[derive(Clone, Copy)]
pub enum Expected<'a> {
    Cells(&'a [i32]),
    Refused(u32),
}

impl Holder {
    /// A grid of one to nine tiles at random, other elements and tile records beside.
    pub fn new(type_code: u8, tile: [u32; 2], content: &[u8], random: &mut Prng) -> Holder {
        let grid = tile.map(|side| {
            let tiles = random.between(1, 3) as u32;
            ((tiles - 1) * side + random.between(1, side as usize) as u32).min(65_536)
        });
        let page = Page::of_sides(grid, tile);
        let at = (random.below(page.tiles_down()), random.below(page.tiles_across()));
        Holder::in_grid(page, at, type_code, content, random)
    }

    /// A grid of one tile with so many rows and columns less than the tile has.
    pub fn over_the_edge(
        type_code: u8,
        tile: [u32; 2],
        less: [u32; 2],
        content: &[u8],
        random: &mut Prng,
    ) -> Holder {
        let page = Page::of_sides([tile[0] - less[0], tile[1] - less[1]], tile);
        Holder::in_grid(page, (0, 0), type_code, content, random)
    }

    fn in_grid(
        mut page: Page,
        tile: (usize, usize),
        type_code: u8,
        content: &[u8],
        random: &mut Prng,
    ) -> Holder {
        let others = page.tile_rows * page.tile_columns <= MOST_BESIDE_OTHERS;
        page.elements = elements(type_code, others, random);
        let element = page.elements.iter().position(|element| element.name == b"packed");
        let element = element.expect("the element that is packed");
        assert!(content.len() < page.uncompressed_size(element), "L is below U");
        page.checksums = !random.one_in(4);
        page.filler = if random.one_in(2) { Filler::Zero } else { Filler::Junk(random.long()) };
        page.methods = (0..random.below(3)).map(|_| b"GvrsHuffman".to_vec()).collect();
        let index = tile.0 * page.tiles_across() + tile.1;
        put_tiles(&mut page, index, others, random);
        let record = page.records.iter().position(|record| match &record.body {
            Body::Tile(tile) => tile.index as usize == index,
            _ => false,
        });
        let mut holder = Holder {
            built: build(&page),
            page,
            tile,
            element,
            record: record.expect("the tile's record"),
        };
        holder.set_content(element, content);
        holder
    }

    /// Puts another content into the same tile.
    pub fn set_content(&mut self, element: usize, content: &[u8]) {
        if let Body::Tile(tile) = &mut self.page.records[self.record].body {
            tile.contents[element] = content.to_vec();
        }
        self.built = build(&self.page);
    }

    pub fn file(&self) -> &[u8] {
        &self.built.bytes
    }

    pub fn type_code(&self) -> u8 {
        self.page.elements[self.element].type_code
    }

    pub fn shape(&self) -> Shape {
        Shape {
            rows: self.page.tile_rows as usize,
            columns: self.page.tile_columns as usize,
            short: self.page.elements[self.element].cell_size() == 2,
        }
    }

    /// Tile index and element number, as a whole tile is asked for.
    pub fn place(&self) -> (u64, u64) {
        let index = self.tile.0 * self.page.tiles_across() + self.tile.1;
        (index as u64, self.element as u64)
    }

    /// The start of the tile's record.
    pub fn start(&self) -> u64 {
        self.built.starts[self.record] as u64
    }

    /// The first byte of the element's content.
    pub fn content_start(&self) -> u64 {
        self.built.named_in("content", self.record)[self.element].at as u64
    }

    /// The compressor index of the content.
    pub fn index(&self) -> u32 {
        u32::from(self.file()[self.content_start() as usize])
    }

    /// Cells of the tile in the grid, by their number inside: all, or some of many.
    pub fn spots(&self, random: &mut Prng) -> Vec<(usize, Spot)> {
        let (cells, columns) = (self.shape().cells(), self.shape().columns);
        let numbers: Vec<usize> = if cells <= MOST_CELLS {
            (0..cells).collect()
        } else {
            let some = if cells > VERY_LARGE { 2 } else { 8 };
            [0, cells - 1].into_iter().chain((0..some).map(|_| random.below(cells))).collect()
        };
        let described = Described::new(&self.page, &self.built);
        let spot = |number: usize| {
            let cell = (number / columns, number % columns);
            described.spot(Inside { tile: self.tile, cell, element: self.element })
        };
        numbers.into_iter().filter_map(|number| Some((number, spot(number)?))).collect()
    }

    /// What a cell's bits are: 16 of a Short.
    pub fn bits(&self, value: i32) -> u32 {
        if self.shape().short {
            u32::from(value as u16)
        } else {
            value as u32
        }
    }

    /// What `gvrs_unpack` has to answer.
    pub fn cells(&self, expected: Expected) -> Cells {
        match expected {
            Expected::Cells(values) => Cells::Unpacked {
                start: self.content_start(),
                bits: values.iter().map(|value| self.bits(*value)).collect(),
            },
            Expected::Refused(number) => Cells::Refused((number, self.start())),
        }
    }

    /// What `gvrs_cell_with` has to answer for a cell, by its number inside.
    pub fn cell(&self, expected: Expected, number: usize) -> Cell {
        match expected {
            Expected::Cells(values) => Cell::Unpacked {
                type_code: self.type_code(),
                bits: self.bits(values[number]),
                place: self.content_start(),
                location: Location { tile: self.place().0, inside: number as u64 },
            },
            Expected::Refused(refusal) => Cell::Refused((refusal, self.start())),
        }
    }
}

/// The element that is packed, perhaps among others.
fn elements(type_code: u8, others: bool, random: &mut Prng) -> Vec<Element> {
    let mut elements = vec![Element::new(type_code, b"packed")];
    if others {
        for name in [b"a", b"b", b"c"] {
            if random.one_in(3) {
                let at = random.between(0, elements.len());
                elements.insert(at, Element::new(random.below(4) as u8, name));
            }
        }
    }
    for element in &mut elements {
        element.range_and_fill = random.bytes(element.range_and_fill.len());
    }
    elements
}

/// The tile's record, and perhaps others.
fn put_tiles(page: &mut Page, index: usize, others: bool, random: &mut Prng) {
    for number in 0..page.tile_count() {
        if number == index || (others && random.one_in(3)) {
            let contents = contents(page, random);
            let at = random.between(0, page.records.len());
            page.insert(at, Body::Tile(Tile { index: number as u32, contents }));
        }
    }
}

/// Every way to ask for the content: the check accepts the file, the old calls say 11, the whole
/// tile and its cells by every route come out as expected, and with any other compressor are 11.
/// True if all is as expected.
pub fn whole(
    run: &mut Run,
    sort: &'static str,
    what: &str,
    holder: &Holder,
    expected: Expected,
    random: &mut Prng,
) -> bool {
    run.expect(sort, what, holder.file(), (0, 0));
    let asked = Asked::new(holder.file());
    let spots = holder.spots(random);
    let mut good = old_calls(run, sort, holder, &asked, &spots, random);
    let (place, index) = (holder.place(), holder.index());
    good &= run.unpack_is(sort, &asked, place, index, &holder.cells(expected));
    for (number, spot) in &spots {
        let cell = holder.cell(expected, *number);
        for route in routes(random) {
            good &= run.cell_with_is(sort, &asked, (*spot, route), index, cell);
        }
    }
    good &= other_indexes(run, sort, holder, &asked, &spots, random);
    if !good {
        run.fault(&format!("{sort}: {what}"), holder.file());
    } else if matches!(expected, Expected::Cells(_)) {
        let predictor = holder.file()[holder.content_start() as usize + 1];
        run.packed.content(predictor, holder.type_code());
    }
    good
}

/// Req 01: "The content part stays 11"; a call that names no index answers as before.
fn old_calls(
    run: &mut Run,
    sort: &str,
    holder: &Holder,
    asked: &Asked,
    spots: &[(usize, Spot)],
    random: &mut Prng,
) -> bool {
    let refusal = (11, holder.start());
    let mut good = run.content_is(sort, asked, holder.place(), Content::Refused(refusal));
    if let Some((_, spot)) = random.pick_any(spots) {
        good &= run.cell_is_by_all(sort, asked, spot, Cell::Refused(refusal), random);
    }
    good
}

/// Req 01: "Any other index [..] is still 11": one next to it, one that differs in a bit, none, and
/// one of which only the low byte is the same.
fn other_indexes(
    run: &mut Run,
    sort: &str,
    holder: &Holder,
    asked: &Asked,
    spots: &[(usize, Spot)],
    random: &mut Prng,
) -> bool {
    let index = holder.index();
    let expected = Expected::Refused(11);
    let others = [
        (index + 1) % 256,
        index ^ 1 << random.below(8),
        256,
        index + 256,
        index | 1 << random.between(8, 31),
        u32::MAX,
    ];
    let mut good = true;
    for other in [random.pick(&others), random.pick(&others)] {
        good &= run.unpack_is(sort, asked, holder.place(), other, &holder.cells(expected));
        if let Some((number, spot)) = random.pick_any(spots) {
            let (cell, route) = (holder.cell(expected, number), routes(random)[random.below(4)]);
            good &= run.cell_with_is(sort, asked, (spot, route), other, cell);
        }
    }
    good
}
