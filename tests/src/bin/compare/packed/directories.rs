//! Packed contents where the directory is at fault: the walk without stage 9 unpacks all the same.

use gvrs_tests::build::{build, make_checksums_good};
use gvrs_tests::library::{DIRECTORY, WALK, WALK_WITHOUT_STAGE_9};
use gvrs_tests::page::{Body, Tile};
use gvrs_tests::prng::Prng;
use gvrs_tests::second::cells::{Cell, Cells};
use gvrs_tests::second::chain;

use super::contents::{good, good_of, Form};
use super::holder::{Expected, Holder};
use crate::reads::ask::Asked;
use crate::run::Run;

const SORT: &str = "packed contents, directory at fault";

const NO_REFERENCE: &str = "unpacked without stage 9: the tile's reference is zero";
const NO_DIRECTORY: &str = "unpacked without stage 9: no tile directory";
const MALFORMED: &str = "14 without stage 9: the tile's reference is zero";
const FIRST_OF_TWO: &str = "unpacked without stage 9: the first of two records of one tile";

pub fn section(run: &mut Run, random: &mut Prng) {
    for thing in [NO_REFERENCE, NO_DIRECTORY, MALFORMED, FIRST_OF_TWO] {
        run.packed.want(thing);
    }
    for _ in 0..run.times(200) {
        no_reference(run, random);
        no_directory(run, random);
        two_records(run, random);
    }
}

/// By route 2 as expected; by the others, and as a whole tile, 9.
fn by_records(run: &mut Run, holder: &Holder, expected: Expected, thing: &str, random: &mut Prng) {
    let asked = Asked::new(holder.file());
    let (index, refused) = (holder.index(), (9, 16));
    let mut good = run.unpack_is(SORT, &asked, holder.place(), index, &Cells::Refused(refused));
    for (number, spot) in holder.spots(random) {
        for route in [DIRECTORY, WALK] {
            let refused = Cell::Refused(refused);
            good &= run.cell_with_is(SORT, &asked, (spot, route), index, refused);
        }
        let cell = holder.cell(expected, number);
        good &= run.cell_with_is(SORT, &asked, (spot, WALK_WITHOUT_STAGE_9), index, cell);
    }
    if good {
        run.packed.reached(thing);
    }
}

fn no_reference(run: &mut Run, random: &mut Prng) {
    let good = good(random);
    let mut content = good.packed.bytes();
    let malformed = random.one_in(3);
    if malformed {
        content.pop();
    }
    let mut holder = Holder::new(good.type_code, good.tile, &content, random);
    for field in holder.built.named("tile reference") {
        holder.built.set(&field, 0);
    }
    make_checksums_good(&mut holder.built.bytes);
    let cells = Expected::Cells(&good.cells);
    let (expected, thing) =
        if malformed { (Expected::Refused(14), MALFORMED) } else { (cells, NO_REFERENCE) };
    by_records(run, &holder, expected, thing, random);
}

fn no_directory(run: &mut Run, random: &mut Prng) {
    let good = good(random);
    let mut holder = Holder::new(good.type_code, good.tile, &good.packed.bytes(), random);
    let number = holder.page.of_type(chain::TILE_DIRECTORY)[0];
    holder.page.remove(number);
    holder.record -= usize::from(number < holder.record);
    holder.built = build(&holder.page);
    by_records(run, &holder, Expected::Cells(&good.cells), NO_DIRECTORY, random);
}

/// A second record of the same tile, packed otherwise, behind the first.
fn two_records(run: &mut Run, random: &mut Prng) {
    let one = good(random);
    let other = good_of(one.type_code, one.tile, one.predictor(), Form::Huffman, random);
    let Some(mut other) = other else {
        return;
    };
    other.packed.index = one.packed.index;
    let mut holder = Holder::new(one.type_code, one.tile, &one.packed.bytes(), random);
    let Body::Tile(tile) = &holder.page.records[holder.record].body else {
        return;
    };
    let mut second = Tile { index: tile.index, contents: tile.contents.clone() };
    second.contents[holder.element] = other.packed.bytes();
    let behind = random.between(holder.record + 1, holder.page.records.len());
    holder.page.insert(behind, Body::Tile(second));
    holder.built = build(&holder.page);
    by_records(run, &holder, Expected::Cells(&one.cells), FIRST_OF_TWO, random);
}
