//! Trees of one, two and 256 leaves, combs of depth 255, leaves that no code reaches.

use gvrs_tests::page::{INTEGER, SHORT};
use gvrs_tests::prng::Prng;
use gvrs_tests::second::huffman::Tree;
use gvrs_tests::second::m32;
use gvrs_tests::second::pack::Packed;
use gvrs_tests::second::predict::{Predictor, PREDICTORS};

use super::contents::{good_of, shape, Form, TYPES};
use super::holder::{whole, Expected, Holder};
use crate::run::Run;

const SORT: &str = "packed contents by their trees";

const ONE_LEAF: &str = "a tree of one leaf: every symbol";
const LEAF_127: &str = "a tree of one leaf, 127: every number is 254";
const LEAF_129: &str = "a tree of one leaf, -127: the magnitude never ends";
const RANGE_ENDS: &str = "a tree of one leaf, 127: the last Short is still in its range";
const OUT_OF_RANGE: &str = "a tree of one leaf, 127: a Short more is out of its range";
const TWO_LEAVES: &str = "a tree of two leaves";
const ALL_LEAVES: &str = "a flat tree of 256 leaves";
const COMB: &str = "a comb of depth 255";
const DEEPEST: &str = "a comb of depth 255, its deepest leaf used";
const UNUSED: &str = "leaves that no code reaches";

pub fn section(run: &mut Run, random: &mut Prng) {
    for thing in [ONE_LEAF, LEAF_127, LEAF_129, RANGE_ENDS, OUT_OF_RANGE, TWO_LEAVES] {
        run.packed.want(thing);
    }
    for thing in [ALL_LEAVES, COMB, DEEPEST, UNUSED] {
        run.packed.want(thing);
    }
    let step = if run.small { 51 } else { 1 };
    for symbol in (0..=255).step_by(step).chain([127, 128, 129]) {
        one_leaf(run, symbol, random);
    }
    shorts_of_leaf_127(run, random);
    for _ in 0..run.times(60) {
        two_leaves(run, random);
        formed(run, Form::Flat(256), ALL_LEAVES, random);
        formed(run, Form::Comb(256, random.long()), COMB, random);
        formed(run, Form::Comb(256, random.pick(&[0, u64::MAX])), COMB, random);
        deepest(run, random);
        formed(run, Form::Flat(random.between(30, 100)), UNUSED, random);
    }
}

/// Req 01: "A tree of one leaf spends no bits": 13 bytes hold any number of cells.
fn one_leaf(run: &mut Run, symbol: u8, random: &mut Prng) {
    let tile = [random.between(2, 20) as u32, random.between(4, 20) as u32];
    let predictor = random.pick(&PREDICTORS);
    let numbers = shape(INTEGER, tile).cells() - 1;
    let many_bytes = vec![symbol; 2 * numbers];
    let (residuals, _) = m32::read(&many_bytes, numbers);
    let mut packed = Packed::of_residuals(random.integer() as i32, &[0], |_| Tree::Leaf(symbol));
    packed.symbols = Vec::new();
    packed.predictor = predictor.number();
    let bytes = if symbol == 127 { 2 * numbers } else { numbers };
    packed.count = random.pick(&[numbers, bytes]) as u32;
    let holder = Holder::new(INTEGER, tile, &packed.bytes(), random);
    let cells = predictor.cells(packed.seed, &residuals, tile[1] as usize);
    let (expected, thing) = match symbol {
        129 => (Expected::Refused(14), LEAF_129),
        127 => (Expected::Cells(&cells), LEAF_127),
        _ => (Expected::Cells(&cells), ONE_LEAF),
    };
    if whole(run, SORT, thing, &holder, expected, random) {
        run.packed.reached(thing);
    }
}

/// From -32768 on by steps of 254: 258 steps end at 32764.
fn shorts_of_leaf_127(run: &mut Run, random: &mut Prng) {
    for (columns, thing) in [(259, RANGE_ENDS), (260, OUT_OF_RANGE)] {
        let residuals = vec![254; columns as usize - 1];
        let cells = Predictor::Differencing.cells(-32_768, &residuals, columns as usize);
        let mut packed = Packed::of_residuals(-32_768, &residuals, |_| Tree::Leaf(127));
        packed.index = random.byte();
        let holder = Holder::new(SHORT, [1, columns], &packed.bytes(), random);
        let expected = if columns == 259 { Expected::Cells(&cells) } else { Expected::Refused(14) };
        if whole(run, SORT, thing, &holder, expected, random) {
            run.packed.reached(thing);
        }
    }
}

/// Two small numbers, each on either side.
fn two_leaves(run: &mut Run, random: &mut Prng) {
    let tile = [random.between(2, 12) as u32, random.between(7, 12) as u32];
    let type_code = random.pick(&TYPES);
    let predictor = random.pick(&[Predictor::Differencing, Predictor::Triangle]);
    let shape = shape(type_code, tile);
    let both = [random.byte() % 127, 255 - random.byte() % 100];
    let residual = |random: &mut Prng| i32::from(random.pick(&both) as i8);
    let mut residuals: Vec<i32> = (1..shape.cells()).map(|_| residual(random)).collect();
    residuals[0] = i32::from(both[0] as i8);
    residuals[1] = i32::from(both[1] as i8);
    let tree = Tree::branch(Tree::Leaf(both[0]), Tree::Leaf(both[1]));
    let mut packed = Packed::of_residuals(0, &residuals, |_| tree);
    packed.predictor = predictor.number();
    let cells = predictor.cells(0, &residuals, shape.columns);
    let in_range = cells.iter().all(|cell| i16::try_from(*cell).is_ok());
    let good = in_range || !shape.short;
    let expected = if good { Expected::Cells(&cells) } else { Expected::Refused(14) };
    let holder = Holder::new(type_code, tile, &packed.bytes(), random);
    if whole(run, SORT, TWO_LEAVES, &holder, expected, random) {
        run.packed.reached(TWO_LEAVES);
    }
}

/// A tile that is large enough for a tree of 256 leaves.
fn formed(run: &mut Run, form: Form, thing: &'static str, random: &mut Prng) {
    let tile = [random.between(16, 24) as u32, random.between(17, 24) as u32];
    let (type_code, predictor) = (random.pick(&TYPES), random.pick(&PREDICTORS));
    let Some(good) = good_of(type_code, tile, predictor, form, random) else {
        return;
    };
    let holder = Holder::new(type_code, tile, &good.packed.bytes(), random);
    if whole(run, SORT, thing, &holder, Expected::Cells(&good.cells), random) {
        run.packed.reached(thing);
    }
}

fn deepest(run: &mut Run, random: &mut Prng) {
    let (holder, cells) = deep_comb(random);
    if whole(run, SORT, DEEPEST, &holder, Expected::Cells(&cells), random) {
        run.packed.reached(DEEPEST);
    }
}

/// A page with a tile whose tree is a comb of depth 255, and the tile's cells. The symbol that
/// stands deepest comes first, in the middle and last.
pub fn deep_comb(random: &mut Prng) -> (Holder, Vec<i32>) {
    let (type_code, predictor) = (random.pick(&TYPES), random.pick(&PREDICTORS));
    let mut leaves: Vec<u8> = (0..=255).collect();
    random.shuffle(&mut leaves);
    // No change is nearest to the root; one up stands deepest.
    let near = leaves.iter().position(|leaf| *leaf == 0).expect("0");
    leaves.swap(near, 0);
    let deep = leaves.iter().position(|leaf| *leaf == 1).expect("1");
    leaves.swap(deep, 255);
    let mut residuals = vec![0; 399];
    for at in [0, 200, 398] {
        residuals[at] = 1;
    }
    let tree = Tree::comb(&leaves, random.long());
    let mut packed = Packed::of_residuals(-3, &residuals, |_| tree);
    packed.predictor = predictor.number();
    let cells = predictor.cells(-3, &residuals, 20);
    (Holder::new(type_code, [20, 20], &packed.bytes(), random), cells)
}
