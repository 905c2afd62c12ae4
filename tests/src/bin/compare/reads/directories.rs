//! Directories that would lead elsewhere: the walk without stage 9 answers from the records alone.

use gvrs_tests::build::{build, make_checksums_good, Built, Field};
use gvrs_tests::library::{DIRECTORY, WALK, WALK_WITHOUT_STAGE_9};
use gvrs_tests::page::{Body, Page, Tile};
use gvrs_tests::prng::Prng;
use gvrs_tests::random_page::{contents, put_anywhere};
use gvrs_tests::second::cells::{Cell, Content};
use gvrs_tests::second::chain;

use super::ask::Asked;
use super::described::{Described, Inside};
use super::made::small_page;
use crate::run::Run;

const SORT: &str = "directories that lead elsewhere";

const TWO_RECORDS: [&str; 3] = [
    "two tile records of one index, the first counts: listed the first",
    "two tile records of one index, the first counts: listed the second",
    "two tile records of one index, the first counts: none listed",
];
const FIRST_COMPRESSED: &str = "the first of two is compressed, the second not";
const SECOND_COMPRESSED: &str = "the second of two is compressed, the first not";
const OTHER_BITS: &str = "both of two are stored, with other bits";
const NO_DIRECTORY: &str = "tile records and no tile directory at all";
const EXCHANGED: &str = "references of two tiles exchanged";
const ALL_ZERO: &str = "every reference zero, tile records stored";

pub fn section(run: &mut Run, random: &mut Prng) {
    for thing in TWO_RECORDS {
        run.reads.want(thing);
    }
    let things =
        [FIRST_COMPRESSED, SECOND_COMPRESSED, OTHER_BITS, NO_DIRECTORY, EXCHANGED, ALL_ZERO];
    for thing in things {
        run.reads.want(thing);
    }
    for _ in 0..run.times(600) {
        two_records(run, random);
        no_directory(run, random);
        exchanged(run, random);
        all_zero(run, random);
    }
}

/// The cell from the records alone; by the other routes, and for contents, 9.
fn is_by_records(run: &mut Run, described: &Described, asked: &Asked, inside: Inside) -> bool {
    let spot = described.spot(inside).expect("in the grid");
    let refused = Cell::Refused((9, 16));
    let expected = described.cell(inside);
    let (tile, element) = (described.index(inside.tile) as u64, inside.element as u64);
    run.cell_is(SORT, asked, spot, DIRECTORY, refused)
        & run.cell_is(SORT, asked, spot, WALK, refused)
        & run.content_is(SORT, asked, (tile, element), Content::Refused((9, 16)))
        & run.cell_is(SORT, asked, spot, WALK_WITHOUT_STAGE_9, expected)
}

/// Cells that do not lie in an absent tile.
fn stored_cells(described: &Described, random: &mut Prng) -> Vec<Inside> {
    let mut some: Vec<Inside> = (0..6).map(|_| described.at_random(random)).collect();
    some.retain(|inside| !matches!(described.cell(*inside), Cell::Fill { .. }));
    some
}

fn two_records(run: &mut Run, random: &mut Prng) {
    let mut page = small_page(random);
    let numbers = page.of_type(chain::TILE);
    let Body::Tile(one) = &page.records[random.pick(&numbers)].body else {
        return;
    };
    let other = Tile { index: one.index, contents: contents(&page, random) };
    let index = one.index as usize;
    put_anywhere(&mut page, Body::Tile(other), random);
    let mut built = build(&page);
    let listed = random.below(3);
    list_another(&page, &mut built, index, listed);
    let described = Described::new(&page, &built);
    let asked = Asked::new(&built.bytes);
    let across = page.tiles_across();
    for _ in 0..4 {
        let mut inside = described.at_random(random);
        inside.tile = (index / across, index % across);
        if described.spot(inside).is_some() && is_by_records(run, &described, &asked, inside) {
            run.reads.reached(TWO_RECORDS[listed]);
            note_difference(run, &page, index, inside.element);
        }
    }
}

/// The tile records of an index, by their number.
fn with_index(page: &Page, index: usize) -> Vec<usize> {
    let mut numbers = page.of_type(chain::TILE);
    numbers.retain(|number| match &page.records[*number].body {
        Body::Tile(tile) => tile.index as usize == index,
        _ => false,
    });
    numbers
}

/// Sets the reference of the tile that has two records: 0 leaves the first, 1 is the second, 2 none.
fn list_another(page: &Page, built: &mut Built, index: usize, listed: usize) {
    let starts: Vec<usize> =
        with_index(page, index).iter().map(|number| built.starts[*number]).collect();
    let value = |field: &Field, start: usize| {
        let content = start as u64 + 8;
        if field.width == 8 {
            content
        } else {
            content / 8
        }
    };
    let references = built.named("tile reference");
    let first = |field: &&Field| built.value(field) == value(field, starts[0]);
    let Some(field) = references.iter().find(first) else {
        return;
    };
    let new = match listed {
        0 => return,
        1 => value(field, starts[1]),
        _ => 0,
    };
    built.set(field, new);
    make_checksums_good(&mut built.bytes);
}

fn note_difference(run: &mut Run, page: &Page, index: usize, element: usize) {
    let numbers = with_index(page, index);
    let content = |number: usize| match &page.records[numbers[number]].body {
        Body::Tile(tile) => tile.contents[element].clone(),
        _ => Vec::new(),
    };
    let (first, second) = (content(0), content(1));
    let whole = page.uncompressed_size(element);
    match (first.len() == whole, second.len() == whole) {
        (true, true) if first != second => run.reads.reached(OTHER_BITS),
        (true, false) => run.reads.reached(SECOND_COMPRESSED),
        (false, true) => run.reads.reached(FIRST_COMPRESSED),
        _ => (),
    }
}

fn no_directory(run: &mut Run, random: &mut Prng) {
    let mut page = small_page(random);
    let number = page.of_type(chain::TILE_DIRECTORY)[0];
    page.remove(number);
    each_stored_cell(run, &page, &build(&page), NO_DIRECTORY, random);
}

fn each_stored_cell(run: &mut Run, page: &Page, built: &Built, thing: &str, random: &mut Prng) {
    let described = Described::new(page, built);
    let asked = Asked::new(&built.bytes);
    for inside in stored_cells(&described, random) {
        if is_by_records(run, &described, &asked, inside) {
            run.reads.reached(thing);
        }
    }
}

fn references_to_tiles(built: &Built) -> Vec<Field> {
    let mut fields = built.named("tile reference");
    fields.retain(|field| built.value(field) != 0);
    fields
}

fn exchanged(run: &mut Run, random: &mut Prng) {
    let page = small_page(random);
    let mut built = build(&page);
    let fields = references_to_tiles(&built);
    if fields.len() < 2 {
        return;
    }
    let (first, second) = (built.value(&fields[0]), built.value(&fields[1]));
    built.set(&fields[0], second);
    built.set(&fields[1], first);
    make_checksums_good(&mut built.bytes);
    each_stored_cell(run, &page, &built, EXCHANGED, random);
}

fn all_zero(run: &mut Run, random: &mut Prng) {
    let page = small_page(random);
    let mut built = build(&page);
    for field in references_to_tiles(&built) {
        built.set(&field, 0);
    }
    make_checksums_good(&mut built.bytes);
    each_stored_cell(run, &page, &built, ALL_ZERO, random);
}
