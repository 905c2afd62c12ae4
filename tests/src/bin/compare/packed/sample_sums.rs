//! The sample sums of Req 01.

use gvrs_tests::page::{INTEGER, INTEGER_CODED, SHORT};
use gvrs_tests::prng::Prng;
use gvrs_tests::second::huffman::Tree;
use gvrs_tests::second::pack::Packed;
use gvrs_tests::second::predict::PREDICTORS;

use super::holder::{whole, Expected, Holder};
use crate::run::Run;

const SORT: &str = "sample sums of packed contents";

/// A content of 2 by 4 Shorts: 15 bytes of U 16.
const FIFTEEN: [u8; 15] = [7, 0, 5, 0, 0, 0, 7, 0, 0, 0, 1, 0x02, 0x0c, 0xb8, 0x03];
/// One leaf, -1.
const MINUS_ONE: [u8; 13] = [7, 0, 3, 0, 0, 0, 7, 0, 0, 0, 0, 0xff, 0x01];
/// One leaf, -128, triangle.
const LOWEST: [u8; 13] = [7, 2, 0, 0, 0, 0, 7, 0, 0, 0, 0, 0x01, 0x01];

/// Byte 1 of the first content, and what comes out.
const BY_PREDICTOR: [(u8, [i32; 8]); 3] = [
    (0, [5, 6, 7, 8, 5, 6, 7, 8]),
    (1, [5, 6, 8, 11, 5, 6, 8, 11]),
    (2, [5, 6, 7, 8, 5, 7, 9, 11]),
];

const TABLES: &str = "sample: G 5.1.4's tables, D-(2C-B) in the linear one";

pub fn section(run: &mut Run, random: &mut Prng) {
    for (predictor, cells) in BY_PREDICTOR {
        let mut content = FIFTEEN;
        content[1] = predictor;
        let what = format!("sample: 15 bytes, predictor {predictor}");
        sample(run, &what, SHORT, &content, Expected::Cells(&cells), random);
    }
    let malformed = Expected::Refused(14);
    let mut content = FIFTEEN;
    content[1] = 3;
    sample(run, "sample: 15 bytes, predictor 3", SHORT, &content, malformed, random);
    sample(run, "sample: the first 14 of 15 bytes", SHORT, &FIFTEEN[..14], malformed, random);
    let down = Expected::Cells(&[3, 2, 1, 0, 2, 1, 0, -1]);
    sample(run, "sample: one leaf, -1", SHORT, &MINUS_ONE, down, random);
    let low = i32::MIN;
    let lowest = [0, low, 0, low, low, low, low, low];
    for type_code in [INTEGER, INTEGER_CODED] {
        let cells = Expected::Cells(&lowest);
        sample(run, "sample: one leaf, -128, triangle", type_code, &LOWEST, cells, random);
    }
    sample(run, "sample: the same as Shorts", SHORT, &LOWEST, malformed, random);
    tables(run, random);
}

fn sample(
    run: &mut Run,
    what: &str,
    type_code: u8,
    content: &[u8],
    expected: Expected,
    random: &mut Prng,
) {
    run.packed.want(what);
    for _ in 0..run.times(20) {
        let holder = Holder::new(type_code, [2, 4], content, random);
        if whole(run, SORT, what, &holder, expected, random) {
            run.packed.reached(what);
        }
    }
}

/// G 5.1.4 with A to P: the residuals as the tables print them, from sixteen different values.
fn tables(run: &mut Run, random: &mut Prng) {
    run.packed.want(TABLES);
    let values = [3, 100, -7, 30_000, -30_000, 8, 9, 1_000, 77, -2, 555, 12, -32_768, 32_767, 0, 6];
    let [a, b, c, d, e, f, g, h, i, j, k, l, m, n, o, p] = values;
    #[rustfmt::skip]
    let printed = [
        [b - a, c - b, d - c,
         e - a, f - e, g - f, h - g,
         i - e, j - i, k - j, l - k,
         m - i, n - m, o - n, p - o],
        [b - a, c - (2 * b - a), d - (2 * c - b),
         e - a, f - e, g - (2 * f - e), h - (2 * g - f),
         i - e, j - i, k - (2 * j - i), l - (2 * k - j),
         m - i, n - m, o - (2 * n - m), p - (2 * o - n)],
        [b - a, c - b, d - c,
         e - a, f - (b + e - a), g - (c + f - b), h - (d + g - c),
         i - e, j - (f + i - e), k - (g + j - f), l - (h + k - g),
         m - i, n - (j + m - i), o - (k + n - j), p - (l + o - k)],
    ];
    for (predictor, residuals) in PREDICTORS.into_iter().zip(printed) {
        if predictor.residuals(&values, 4) != residuals {
            run.fault(&format!("{TABLES}: second, {predictor:?}"), &[]);
        }
        // The same sixteen in the first columns of a wider tile would be another sum, so the tile
        // is made longer below: rows that repeat the last one.
        let rows = 40;
        let mut residuals = residuals.to_vec();
        let mut cells = values.to_vec();
        for _ in 4..rows {
            residuals.extend(&predictor.residuals(&[[m, n, o, p], [m, n, o, p]].concat(), 4)[3..]);
            cells.extend([m, n, o, p]);
        }
        for type_code in [INTEGER, SHORT] {
            let mut packed = Packed::of_residuals(a, &residuals, Tree::huffman);
            packed.predictor = predictor.number();
            let holder = Holder::new(type_code, [rows, 4], &packed.bytes(), random);
            if whole(run, SORT, TABLES, &holder, Expected::Cells(&cells), random) {
                run.packed.reached(TABLES);
            }
        }
    }
}
