//! Tiles, elements, rows and columns that are not there, and compressor numbers of every size.

use gvrs_tests::prng::Prng;
use gvrs_tests::second::cells::{Cell, Cells, Spot};

use super::contents::good;
use super::holder::{Expected, Holder};
use crate::reads::ask::{routes, Asked};
use crate::run::Run;

const SORT: &str = "packed contents: numbers outside";
const INDEX_SORT: &str = "packed contents: every compressor index";

const OUTSIDE: &str = "10, with the index of a packed content";
const EVERY_INDEX: &str = "of 256 compressor indexes one unpacks";

pub fn section(run: &mut Run, random: &mut Prng) {
    run.packed.want(OUTSIDE);
    run.packed.want(EVERY_INDEX);
    for _ in 0..run.times(100) {
        outside(run, random);
    }
    for _ in 0..run.times(20) {
        every_index(run, random);
    }
}

fn outside(run: &mut Run, random: &mut Prng) {
    let good = good(random);
    let holder = Holder::new(good.type_code, good.tile, &good.packed.bytes(), random);
    let asked = Asked::new(holder.file());
    let (tile, element) = holder.place();
    let page = &holder.page;
    let far = [1 << 31, 1 << 32, 1 << 63, u64::MAX];
    let mut all = true;
    for other in [page.tile_count() as u64, tile + (1 << 32), tile + (1 << 63)]
        .into_iter()
        .chain(far)
        .map(|other| (other, element))
        .chain([(tile, page.elements.len() as u64), (tile, element + (1 << 32)), (tile, 1 << 63)])
    {
        let refused = Cells::Refused((10, 0));
        all &= run.unpack_is(SORT, &asked, other, holder.index(), &refused);
    }
    let (rows, columns) = (u64::from(page.grid_rows), u64::from(page.grid_columns));
    for [row, column, element] in [
        [rows, 0, element],
        [0, columns, element],
        [0, 0, page.elements.len() as u64],
        [1 << 32, 0, element],
        [0, 1 << 63, element],
        [0, 0, element + (1 << 32)],
        [u64::MAX; 3],
    ] {
        let spot = Spot { row, column, element };
        for route in routes(random) {
            let refused = Cell::Refused((10, 0));
            all &= run.cell_with_is(SORT, &asked, (spot, route), holder.index(), refused);
        }
    }
    if all {
        run.packed.reached(OUTSIDE);
    }
}

/// Each number a byte can be, and the same with higher bits.
fn every_index(run: &mut Run, random: &mut Prng) {
    let good = good(random);
    let holder = Holder::new(good.type_code, good.tile, &good.packed.bytes(), random);
    let asked = Asked::new(holder.file());
    let mut unpacked = 0;
    for index in 0..512 {
        let same = index == holder.index();
        let cells = Expected::Cells(&good.cells);
        let expected = if same { cells } else { Expected::Refused(11) };
        if run.unpack_is(INDEX_SORT, &asked, holder.place(), index, &holder.cells(expected)) {
            unpacked += usize::from(same);
        }
    }
    if unpacked == 1 {
        run.packed.reached(EVERY_INDEX);
    }
}
