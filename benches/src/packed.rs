//! Pages of one packed tile of 1,048,576 bytes: Integers and Shorts, of each predictor, by a deep
//! tree and by a flat one. And a page of packed tiles whose tree is one leaf.

use gvrs_tests::build::bytes_of;
use gvrs_tests::page::{Body, Element, Page, Record, Tile, INTEGER, SHORT};
use gvrs_tests::prng::Prng;
use gvrs_tests::second::huffman::Tree;
use gvrs_tests::second::pack::{by_frequency, Packed};
use gvrs_tests::second::predict::{Predictor, PREDICTORS};

/// The compressor index of each.
pub const INDEX: u32 = 7;

/// Heights of the noise in the cells, of which the greatest is taken that can be packed.
const NOISE: [usize; 14] = [200, 120, 80, 60, 40, 30, 20, 15, 10, 8, 6, 4, 3, 2];

pub struct PackedPage {
    pub name: String,
    pub type_code: u8,
    pub file: Vec<u8>,
    /// Rows and columns.
    pub tile: [u32; 2],
    /// Every cell, row by row.
    pub bits: Vec<u32>,
    /// Bits of the content for each M32 byte.
    pub bits_a_symbol: f64,
}

struct Shape {
    name: &'static str,
    type_code: u8,
    tile: [u32; 2],
}

const SHAPES: [Shape; 2] = [
    Shape { name: "512 by 512 Integers", type_code: INTEGER, tile: [512, 512] },
    Shape { name: "1024 by 512 Shorts", type_code: SHORT, tile: [1024, 512] },
];

/// A tree of 256 leaves for the symbols of a content.
type Form = fn(&[u8]) -> Tree;

const FORMS: [(&str, Form); 2] = [
    ("comb", |symbols| Tree::comb(&by_frequency(symbols, 256), 0x5555_5555_5555_5555)),
    ("flat tree", |symbols| Tree::flat(&by_frequency(symbols, 256))),
];

/// One of each.
pub fn pages() -> Vec<PackedPage> {
    raised_pages(0)
}

/// The same, with so much more in each cell.
pub fn raised_pages(more: i32) -> Vec<PackedPage> {
    let mut pages = Vec::new();
    for shape in &SHAPES {
        for predictor in PREDICTORS {
            for (form, tree) in FORMS {
                let name = format!("{}, {predictor:?}, {form}", shape.name);
                pages.push(page(name, shape, predictor, tree, more));
            }
        }
    }
    pages
}

fn page(name: String, shape: &Shape, predictor: Predictor, tree: Form, more: i32) -> PackedPage {
    let (values, content, symbols) = packed(shape, predictor, tree, more);
    let bits_a_symbol = 8.0 * content.len() as f64 / symbols as f64;
    let mask = if shape.type_code == SHORT { 0xffff } else { u32::MAX };
    let bits = values.iter().map(|value| *value as u32 & mask).collect();
    let Shape { type_code, tile, .. } = *shape;
    PackedPage { name, type_code, file: file_of(shape, content), tile, bits, bits_a_symbol }
}

/// A hilly tile with noise, its content, shorter than its cells, and the number of its M32 bytes.
fn packed(
    shape: &Shape,
    predictor: Predictor,
    tree: Form,
    more: i32,
) -> (Vec<i32>, Vec<u8>, usize) {
    let columns = shape.tile[1] as usize;
    for noise in NOISE {
        let cells: Vec<i32> = hilly(shape.tile, noise).iter().map(|cell| cell + more).collect();
        let mut packed = Packed::new(&cells, columns, predictor, tree);
        packed.index = INDEX as u8;
        let content = packed.bytes();
        if content.len() < 1 << 20 {
            return (cells, content, packed.symbols.len());
        }
    }
    panic!("{}: no noise is low enough", shape.name);
}

fn hilly([rows, columns]: [u32; 2], noise: usize) -> Vec<i32> {
    let mut random = Prng::new(20_240_614);
    let mut cells = Vec::new();
    for row in 0..rows as i32 {
        for column in 0..columns as i32 {
            cells.push(row / 4 + column / 8 + random.below(noise) as i32);
        }
    }
    cells
}

/// A page of this one tile, with the fill -1.
fn file_of(shape: &Shape, content: Vec<u8>) -> Vec<u8> {
    let mut page = Page::of_sides(shape.tile, shape.tile);
    let mut element = Element::new(shape.type_code, b"z");
    element.set_range_and_fill(0, 1000, u32::MAX);
    page.elements = vec![element];
    page.insert(0, Body::Tile(Tile { index: 0, contents: vec![content] }));
    bytes_of(&page)
}

/// 64 tiles of 524,288 equal Shorts, each packed into few bytes: its tree is one leaf.
pub fn tiles_of_one_symbol() -> Vec<u8> {
    const TILE: [u32; 2] = [4096, 128];
    let mut page = Page::of_sides([65_536, 512], TILE);
    page.elements = vec![Element::new(SHORT, b"score")];
    let cells = vec![900; (TILE[0] * TILE[1]) as usize];
    let tree = |symbols: &[u8]| Tree::flat(&by_frequency(symbols, 1));
    let mut packed = Packed::new(&cells, TILE[1] as usize, Predictor::Differencing, tree);
    packed.index = INDEX as u8;
    for index in 0..page.tile_count() as u32 {
        let tile = Tile { index, contents: vec![packed.bytes()] };
        page.records.push(Record::new(Body::Tile(tile)));
    }
    bytes_of(&page)
}
