//! Tiles of one row, of one and of two columns, and of 4,096 a side: "steps for cells the tile
//! lacks left out".

use gvrs_tests::page::SHORT;
use gvrs_tests::prng::Prng;
use gvrs_tests::second::predict::PREDICTORS;

use super::contents::{good_of, Form, TYPES};
use super::holder::{whole, Expected, Holder};
use crate::run::Run;

const SORT: &str = "packed tiles of odd shapes";
const LONG_SORT: &str = "packed tiles of 4,096 a side";

pub fn section(run: &mut Run, random: &mut Prng) {
    let sides = [7, 8, 9, 15, 16, 17, 31, 40, 100, 255, 256, 257];
    for n in sides.into_iter().step_by(if run.small { 7 } else { 1 }) {
        for tile in [[1, n], [n, 1], [n, 2], [2, n], [n, 3], [3, n]] {
            for _ in 0..run.times(2) {
                each(run, SORT, tile, &TYPES, random);
            }
        }
    }
    let long: &[[u32; 2]] = &[[1, 4096], [4096, 1], [4096, 2], [2, 4096]];
    for tile in long {
        each(run, LONG_SORT, *tile, if run.small { &TYPES[..1] } else { &TYPES }, random);
    }
    if run.small {
        return;
    }
    // As many bytes as a tile may have.
    for tile in [[4096, 64], [64, 4096], [512, 512]] {
        each(run, LONG_SORT, tile, &TYPES[..2], random);
    }
    for tile in [[4096, 128], [128, 4096], [1024, 512]] {
        each(run, LONG_SORT, tile, &[SHORT], random);
    }
}

/// Every predictor and type.
fn each(run: &mut Run, sort: &'static str, tile: [u32; 2], types: &[u8], random: &mut Prng) {
    let sides = |side: u32| if side <= 3 || side == 4096 { side.to_string() } else { "n".into() };
    let name = format!("{} by {}", sides(tile[0]), sides(tile[1]));
    for type_code in types {
        for predictor in PREDICTORS {
            let thing = format!("{sort}: {name}, {predictor:?}");
            run.packed.want(&thing);
            let form = random.pick(&[Form::Huffman, Form::Flat(1), Form::Comb(1, 0)]);
            let good = good_of(*type_code, tile, predictor, form, random)
                .or_else(|| good_of(*type_code, tile, predictor, Form::Huffman, random));
            let Some(good) = good else {
                continue;
            };
            let holder = Holder::new(*type_code, tile, &good.packed.bytes(), random);
            let cells = Expected::Cells(&good.cells);
            if whole(run, sort, &thing, &holder, cells, random) {
                run.packed.reached(&thing);
            }
        }
    }
}
