//! Contents at random that unpack to known cells.

use gvrs_tests::page::{INTEGER, INTEGER_CODED, SHORT};
use gvrs_tests::prng::Prng;
use gvrs_tests::second::huffman::Tree;
use gvrs_tests::second::pack::{by_frequency, Packed};
use gvrs_tests::second::predict::{Predictor, PREDICTORS};
use gvrs_tests::second::unpack::Shape;

pub const TYPES: [u8; 3] = [INTEGER, INTEGER_CODED, SHORT];

/// How the tree of a content is made.
#[derive(Clone, Copy, Debug)]
pub enum Form {
    Huffman,
    /// As even as can be, with so many leaves at least.
    Flat(usize),
    /// A comb of so many leaves at least, with its leaves on these sides.
    Comb(usize, u64),
}

impl Form {
    pub fn tree(self, symbols: &[u8], random: &mut Prng) -> Tree {
        match self {
            _ if symbols.is_empty() => Tree::Leaf(random.byte()),
            Form::Huffman => Tree::huffman(symbols),
            Form::Flat(leaves) => {
                let mut leaves = by_frequency(symbols, leaves);
                random.shuffle(&mut leaves);
                Tree::flat(&leaves)
            }
            Form::Comb(leaves, sides) => Tree::comb(&by_frequency(symbols, leaves), sides),
        }
    }
}

pub struct Good {
    pub type_code: u8,
    pub tile: [u32; 2],
    pub cells: Vec<i32>,
    pub packed: Packed,
}

impl Good {
    pub fn shape(&self) -> Shape {
        shape(self.type_code, self.tile)
    }

    /// U.
    pub fn uncompressed(&self) -> usize {
        self.shape().cells() * if self.shape().short { 2 } else { 4 }
    }

    /// L is below U.
    pub fn fits(&self) -> bool {
        self.packed.bytes().len() < self.uncompressed()
    }

    pub fn predictor(&self) -> Predictor {
        Predictor::of_number(self.packed.predictor).expect("one of three")
    }
}

pub fn shape(type_code: u8, [rows, columns]: [u32; 2]) -> Shape {
    Shape { rows: rows as usize, columns: columns as usize, short: type_code == SHORT }
}

/// A content of these cells, if it is shorter than they are. Either form of the count, bits left
/// over of either kind, any compressor index.
pub fn of_cells(
    type_code: u8,
    tile: [u32; 2],
    cells: Vec<i32>,
    predictor: Predictor,
    form: Form,
    random: &mut Prng,
) -> Option<Good> {
    let columns = tile[1] as usize;
    let mut packed = Packed::new(&cells, columns, predictor, |symbols| form.tree(symbols, random));
    packed.index = random.byte();
    packed.rest = random.one_in(2);
    if random.one_in(2) {
        packed.count = packed.symbols.len() as u32;
    }
    let good = Good { type_code, tile, cells, packed };
    good.fits().then_some(good)
}

/// Cells at random of this tile, as wild as fits.
pub fn good_of(
    type_code: u8,
    tile: [u32; 2],
    predictor: Predictor,
    form: Form,
    random: &mut Prng,
) -> Option<Good> {
    let shape = shape(type_code, tile);
    let mut wild = random.between(0, shape.cells().min(40));
    loop {
        let cells = cells(shape, predictor, wild, random);
        let good = of_cells(type_code, tile, cells, predictor, form, random);
        if good.is_some() || wild == 0 {
            return good;
        }
        wild /= 2;
    }
}

/// A content of any type, shape and form.
pub fn good(random: &mut Prng) -> Good {
    loop {
        let tile = match random.below(8) {
            0 => [1, random.between(4, 60) as u32],
            1 => [random.between(4, 60) as u32, 1],
            2 => [random.between(2, 40) as u32, 2],
            3 => [random.between(9, 24) as u32, random.between(9, 24) as u32],
            _ => [random.between(1, 8) as u32, random.between(2, 8) as u32],
        };
        let form = match random.below(8) {
            0..=3 => Form::Huffman,
            4 => Form::Flat(1),
            5 => Form::Flat(random.between(1, 20)),
            6 => Form::Comb(1, random.long()),
            _ => Form::Comb(random.between(1, 20), random.long()),
        };
        let (type_code, predictor) = (random.pick(&TYPES), random.pick(&PREDICTORS));
        if let Some(good) = good_of(type_code, tile, predictor, form, random) {
            return good;
        }
    }
}

/// The ends of a type, and the ends of M32's ranges.
const INTEGERS: [i32; 16] = [
    0,
    1,
    -1,
    i32::MIN,
    i32::MIN + 1,
    i32::MAX,
    126,
    127,
    254,
    255,
    16_638,
    16_639,
    2_113_790,
    2_113_791,
    270_549_246,
    270_549_247,
];
const SHORTS: [i32; 8] = [0, 1, -1, -32_768, 32_767, -127, 255, 16_639];

fn value(shape: Shape, random: &mut Prng) -> i32 {
    match (shape.short, random.one_in(3)) {
        (true, true) => i32::from(random.integer() as i16),
        (true, false) => random.pick(&SHORTS),
        (false, true) => random.integer() as i32,
        (false, false) if random.one_in(2) => random.pick(&INTEGERS),
        (false, false) => random.pick(&INTEGERS).wrapping_neg(),
    }
}

/// So many wild cells, or wild residuals where any cell will do; the others follow the predictor,
/// with small steps.
fn cells(shape: Shape, predictor: Predictor, wild: usize, random: &mut Prng) -> Vec<i32> {
    let (seed, step) = (value(shape, random), random.between(1, 6));
    if !shape.short && random.one_in(2) {
        let mut residuals: Vec<i32> =
            (1..shape.cells()).map(|_| random.below(step) as i32 - 1).collect();
        for _ in 0..wild {
            if let Some(at) = residuals.len().checked_sub(1) {
                residuals[random.between(0, at)] = value(shape, random);
            }
        }
        return predictor.cells(seed, &residuals, shape.columns);
    }
    let small = |random: &mut Prng| {
        let near = seed.wrapping_add(random.below(step) as i32 - 1);
        if shape.short {
            near.clamp(-32_768, 32_767)
        } else {
            near
        }
    };
    let mut cells: Vec<i32> = (0..shape.cells()).map(|_| small(random)).collect();
    for _ in 0..wild {
        let at = random.below(cells.len());
        cells[at] = value(shape, random);
    }
    cells
}
