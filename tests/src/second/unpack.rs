//! Compressed content of an element (Req 01; G section 6): its cells, or nothing where it is
//! malformed or a Short is out of range.

use super::fields::integer_at;
use super::huffman::{Bits, Tree};
use super::m32::next_number;
use super::predict::Predictor;

/// G section 6, and 6.2 step 1: compressor, predictor, seed, count, leaves less one.
const HEAD: usize = 11;

/// The tile's sides, and whether its cells are Shorts.
#[derive(Clone, Copy, Debug, PartialEq)]
pub struct Shape {
    pub rows: usize,
    pub columns: usize,
    pub short: bool,
}

impl Shape {
    pub fn cells(self) -> usize {
        self.rows * self.columns
    }
}

/// All cells of the tile, row by row. The compressor index is not looked at.
pub fn unpack(content: &[u8], shape: Shape) -> Option<Vec<i32>> {
    if content.len() < HEAD {
        return None;
    }
    let predictor = Predictor::of_number(content[1])?;
    let seed = integer_at(content, 2)? as i32;
    let count = integer_at(content, 6)?;
    let mut bits = Bits::from(content, 8 * HEAD);
    let tree = Tree::read(&mut bits, usize::from(content[10]) + 1)?;
    if tree.has_a_symbol_twice() {
        return None;
    }
    let mut symbols = Symbols { tree, bits, read: 0 };
    let residuals = residuals(&mut symbols, shape.cells() - 1)?;
    if !count_is_right(count, residuals.len(), symbols.read) {
        return None;
    }
    let cells = predictor.cells(seed, &residuals, shape.columns);
    (!shape.short || all_are_shorts(&cells)).then_some(cells)
}

/// The M32 bytes that the codes stand for, and how many were read.
struct Symbols<'a> {
    tree: Tree,
    bits: Bits<'a>,
    read: usize,
}

impl Iterator for Symbols<'_> {
    type Item = u8;

    fn next(&mut self) -> Option<u8> {
        self.read += 1;
        self.tree.next_symbol(&mut self.bits)
    }
}

/// Req 01: "Cells less one numbers are read".
fn residuals(symbols: &mut Symbols, count: usize) -> Option<Vec<i32>> {
    let mut residuals = Vec::with_capacity(count);
    for _ in 0..count {
        residuals.push(next_number(symbols)?);
    }
    Some(residuals)
}

/// Req 01: "the count field is right if it is their number or the number of their M32 bytes".
fn count_is_right(count: u32, numbers: usize, bytes: usize) -> bool {
    [numbers, bytes].contains(&(count as usize))
}

/// Every cell of the tile, the seed and those past the grid's edge too (reading 11).
fn all_are_shorts(cells: &[i32]) -> bool {
    cells.iter().all(|cell| i16::try_from(*cell).is_ok())
}
