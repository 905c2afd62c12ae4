//! Contents at random, with junk behind the last bit in some, and two packed elements in one tile.

use gvrs_tests::page::{Body, Element};
use gvrs_tests::prng::Prng;
use gvrs_tests::second::cells::Spot;

use super::contents::{good, good_of, Form, Good};
use super::holder::{whole, Expected, Holder};
use crate::reads::ask::{routes, Asked};
use crate::run::Run;

const SORT: &str = "packed contents at random";
const TWO_SORT: &str = "two packed elements in one tile";

const NUMBERS: &str = "the count is that of numbers, and not that of M32 bytes";
const BYTES: &str = "the count is that of M32 bytes, and not that of numbers";
const JUNK_BITS: &str = "ones behind the last bit of the last byte";
const JUNK_BYTES: &str = "junk bytes behind the last bit";
const ONE_LESS: &str = "L is one less than U";
const OVER_THE_EDGE: &str = "an unpacked tile over the grid's edge";
const BESIDE_MALFORMED: &str = "an unpacked element beside one that is 14";
const OTHER_TILE: &str = "an unpacked tile beside one that is 14";

pub fn section(run: &mut Run, random: &mut Prng) {
    for thing in [NUMBERS, BYTES, JUNK_BITS, JUNK_BYTES, ONE_LESS, OVER_THE_EDGE] {
        run.packed.want(thing);
    }
    for thing in [BESIDE_MALFORMED, OTHER_TILE] {
        run.packed.want(thing);
    }
    for _ in 0..run.times(4000) {
        let mut good = good(random);
        junk_behind(&mut good, random);
        one(run, &good, random);
    }
    for _ in 0..run.times(400) {
        two_elements(run, random);
    }
}

/// Req 01: "bits left over are not judged".
fn junk_behind(good: &mut Good, random: &mut Prng) {
    let room = good.uncompressed() - 1 - good.packed.bytes().len();
    good.packed.behind = match random.below(4) {
        0 => random.bytes(room),
        1 => random.bytes(room.min(5)),
        _ => Vec::new(),
    };
}

fn one(run: &mut Run, good: &Good, random: &mut Prng) {
    let content = good.packed.bytes();
    let holder = Holder::new(good.type_code, good.tile, &content, random);
    if !whole(run, SORT, "good", &holder, Expected::Cells(&good.cells), random) {
        return;
    }
    let (numbers, bytes) = (good.cells.len() - 1, good.packed.symbols.len());
    if numbers != bytes {
        let by_number = good.packed.count as usize == numbers;
        run.packed.reached(if by_number { NUMBERS } else { BYTES });
    }
    if good.packed.rest {
        run.packed.reached(JUNK_BITS);
    }
    if !good.packed.behind.is_empty() {
        run.packed.reached(JUNK_BYTES);
    }
    if content.len() + 1 == good.uncompressed() {
        run.packed.reached(ONE_LESS);
    }
    if holder.spots(random).len() < good.cells.len().min(24) {
        run.packed.reached(OVER_THE_EDGE);
    }
}

/// Reading 12: 14 is for the element's cells in that tile; other elements and other tiles read on.
fn two_elements(run: &mut Run, random: &mut Prng) {
    let (one, other) = (good(random), good(random));
    let again = good_of(other.type_code, one.tile, other.predictor(), Form::Huffman, random);
    let Some(other) = again else {
        return;
    };
    let mut holder = Holder::new(one.type_code, one.tile, &one.packed.bytes(), random);
    let second = holder.page.elements.len();
    holder.page.elements.push(Element::new(other.type_code, b"second"));
    let (other_content, index) = (other.packed.bytes(), other.packed.index);
    let mut bad = vec![index; 10];
    bad.truncate(random.between(1, 10));
    let mut bad_tiles = Vec::new();
    for (number, record) in holder.page.records.iter_mut().enumerate() {
        if let Body::Tile(tile) = &mut record.body {
            let good = number == holder.record || random.one_in(2);
            tile.contents.push(if good { other_content.clone() } else { bad.clone() });
            bad_tiles.extend((!good).then_some(tile.index));
        }
    }
    let mut cut = one.packed.bytes();
    cut.truncate(cut.len() - 1);
    let packed = holder.element;
    for (content, first_good) in [(one.packed.bytes(), true), (cut, false)] {
        let malformed = !first_good && one.packed.behind.is_empty();
        holder.element = packed;
        holder.set_content(packed, &content);
        let cells = Expected::Cells(&one.cells);
        let expected = if malformed { Expected::Refused(14) } else { cells };
        let mut good = whole(run, TWO_SORT, "the first", &holder, expected, random);
        holder.element = second;
        good &= whole(run, TWO_SORT, "the second", &holder, Expected::Cells(&other.cells), random);
        if good && malformed {
            run.packed.reached(BESIDE_MALFORMED);
        }
        if good && !bad_tiles.is_empty() {
            run.packed.reached(OTHER_TILE);
        }
    }
    every_tile(run, &holder, u32::from(index), random);
}

/// The element's cells in the other tiles, whatever they are.
fn every_tile(run: &mut Run, holder: &Holder, index: u32, random: &mut Prng) {
    let asked = Asked::new(holder.file());
    for tile in 0..holder.page.tile_count() {
        run.unpack(TWO_SORT, &asked, (tile as u64, holder.element as u64), index);
        let across = holder.page.tiles_across();
        let spot = Spot {
            row: (tile / across * holder.page.tile_rows as usize) as u64,
            column: (tile % across * holder.page.tile_columns as usize) as u64,
            element: holder.element as u64,
        };
        for route in routes(random) {
            run.cell_with(TWO_SORT, &asked, spot, route, index);
        }
    }
}
