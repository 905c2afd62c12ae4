//! Second pages made from the first, and what both descriptions say of the two.

use gvrs_tests::library::compare_into;
use gvrs_tests::page::{Element, Filler, FLOAT, INTEGER, INTEGER_CODED, SHORT};
use gvrs_tests::prng::Prng;
use gvrs_tests::random_page::text_of;
use gvrs_tests::second::cells::Spot;
use gvrs_tests::second::compare::{Comparison, Whose, ENTRY};

use super::ask::Side;
use super::model::{expected, Model, Part};
use crate::reads::described::fill;
use crate::run::Run;

const SORT: &str = "pages made from each other";

/// How the second page is made from the first, which may change too; and how many cells differ then.
type Way = (&'static str, fn(&mut Model, &mut Model, &mut Prng), Outcome);

#[derive(Clone, Copy, PartialEq)]
enum Outcome {
    None,
    Some,
    All,
    Any,
    Unlike,
    Unreadable(Whose),
    Refused,
}

const WAYS: [Way; 21] = [
    ("nothing changed", |_, _, _| (), Outcome::None),
    ("some values changed", some_values, Outcome::Some),
    ("every value changed", every_value, Outcome::All),
    ("tiles dropped", |_, second, random| drop_tiles(second, random), Outcome::Some),
    ("tiles added", |first, _, random| drop_tiles(first, random), Outcome::Some),
    ("a tile of the fill's bits dropped: another kind", fill_bits, Outcome::Some),
    ("all fills changed", all_fills, Outcome::Any),
    ("all fills changed, no tile stored", no_tile, Outcome::All),
    ("repacked, another compressor index", repacked, Outcome::None),
    ("other names, ranges, labels, filler and checksums", other_words, Outcome::None),
    ("past the grid's edge alone", past_the_edge, Outcome::None),
    ("tiles dropped, values and fills changed", mixed, Outcome::Any),
    ("another grid", other_grid, Outcome::Unlike),
    ("another tile side", other_tile, Outcome::Unlike),
    ("another type of equal size", other_type, Outcome::Unlike),
    ("one element more", one_more, Outcome::Unlike),
    ("12, and unreadable too", unlike_and_spoilt, Outcome::Unlike),
    (
        "unreadable in the first",
        |first, _, random| spoil(first, random),
        Outcome::Unreadable(Whose::First),
    ),
    (
        "unreadable in the second",
        |_, second, random| spoil(second, random),
        Outcome::Unreadable(Whose::Second),
    ),
    ("unreadable in both, one element of one tile", one_part, Outcome::Unreadable(Whose::First)),
    ("unreadable in both, anywhere", both_anywhere, Outcome::Refused),
];

const SECOND_FIRST: &str =
    "unreadable: an element of the second before one of the first, in one cell";
const CUTS: [&str; 3] = [
    "a list cut in the middle of a row",
    "a list cut in the middle of a tile",
    "a list cut in the middle of a cell's elements",
];
const SAME_BYTES: &str = "one file given twice";
const ADDRESSES: &str = "two files at eight addresses in memory";

pub fn section(run: &mut Run, random: &mut Prng) {
    for (name, _, _) in WAYS {
        run.comparisons.want(name);
    }
    for thing in CUTS.iter().chain(&[SECOND_FIRST, SAME_BYTES, ADDRESSES]) {
        run.comparisons.want(thing);
    }
    for _ in 0..run.times(80) {
        for way in WAYS {
            one(run, way, random);
        }
    }
    for _ in 0..run.times(300) {
        second_first(run, random);
    }
}

/// A page of which a tile is stored, and its like.
fn one(run: &mut Run, (name, change, outcome): Way, random: &mut Prng) {
    let mut first = loop {
        let model = Model::at_random(random);
        if !model.tiles.is_empty() {
            break model;
        }
    };
    let mut second = first.clone();
    change(&mut first, &mut second, random);
    let (of_first, of_second) = (first.file(random), second.file(random));
    let said = expected((&first, &of_first), (&second, &of_second));
    let cells = first.page.grid_rows as usize * first.page.grid_columns as usize;
    let all = cells * first.page.elements.len();
    let left = Side::new(&of_first.bytes, u32::from(first.index), first.page.elements.len());
    let right = Side::new(&of_second.bytes, u32::from(second.index), second.page.elements.len());
    let Some(answer) = run.both_orders(SORT, &left, &right) else {
        return;
    };
    if answer != said {
        run.fault(&format!("{name}: {answer:?}, described {said:?}"), left.file);
        return;
    }
    let differing = answer.differing().len();
    let fits = match (outcome, &answer) {
        (Outcome::None, Comparison::Differing(_)) => differing == 0,
        (Outcome::Some, Comparison::Differing(_)) => differing > 0,
        (Outcome::All, Comparison::Differing(_)) => differing == all,
        (Outcome::Any, Comparison::Differing(_)) => true,
        (Outcome::Unlike, Comparison::Refused(Whose::Neither, (12, 0))) => true,
        (Outcome::Unreadable(whose), Comparison::Refused(of, (11 | 14, _))) => whose == *of,
        (Outcome::Refused, Comparison::Refused(_, (11 | 14, _))) => true,
        _ => false,
    };
    if fits {
        run.comparisons.reached(name);
    } else {
        run.fault(&format!("{name}: {answer:?}"), left.file);
    }
    cut(run, &first, &left, &right, &answer, random);
    if random.one_in(8) {
        at_any_address(run, &left, &right, &answer);
    }
}

/// Lists whose end comes where the next entry has the row, the tile, or the cell of the last.
fn cut(
    run: &mut Run,
    model: &Model,
    first: &Side,
    second: &Side,
    answer: &Comparison,
    random: &mut Prng,
) {
    let spots: Vec<Spot> = answer.differing().iter().map(|entry| entry.spot).collect();
    let row = |a: Spot, b: Spot| a.row == b.row;
    let tile = |a: Spot, b: Spot| model.tile(a) == model.tile(b);
    let cell = |a: Spot, b: Spot| row(a, b) && a.column == b.column;
    let alike: [&dyn Fn(Spot, Spot) -> bool; 3] = [&row, &tile, &cell];
    for (thing, alike) in CUTS.iter().zip(alike) {
        let places: Vec<usize> =
            (1..spots.len()).filter(|at| alike(spots[at - 1], spots[*at])).collect();
        let Some(at) = random.pick_any(&places) else {
            continue;
        };
        let room = ENTRY * at + random.below(ENTRY);
        let (mut list, mut out) = (vec![u32::MAX; room], [0; 2]);
        let mut wanted = answer.listed(room);
        wanted.resize(room, u32::MAX);
        let (left, right) = ((first.file, first.compressor), (second.file, second.compressor));
        let number = compare_into(left, right, &mut [], &mut list, &mut out);
        if (number, out) == answer.as_numbers() && list == wanted {
            run.comparisons.reached(thing);
        } else {
            run.fault(&format!("{thing}, at {at} of {}", spots.len()), first.file);
        }
    }
}

/// The answer does not depend on where the files lie in memory, nor on what surrounds them.
fn at_any_address(run: &mut Run, first: &Side, second: &Side, answer: &Comparison) {
    let moved = |file: &[u8], before: usize| [&vec![0xff; before], file, &[0xff; 16]].concat();
    let same = (0..8).all(|before| {
        let (left, right) = (moved(first.file, before), moved(second.file, 7 - before));
        let left = &left[before..before + first.file.len()];
        let right = &right[7 - before..7 - before + second.file.len()];
        let mut out = [0; 2];
        let (left, right) = ((left, first.compressor), (right, second.compressor));
        let number = compare_into(left, right, &mut [0; 64], &mut [], &mut out);
        (number, out) == answer.as_numbers()
    });
    run.comparisons.reached_if(&[(ADDRESSES, same)]);
    if !same {
        run.fault(&format!("{ADDRESSES}: another answer"), first.file);
    }
    let mut out = [0; 2];
    let given = (first.file, first.compressor);
    let number = compare_into(given, given, &mut [], &mut [], &mut out);
    let readable = matches!(answer, Comparison::Differing(_));
    run.comparisons.reached_if(&[(SAME_BYTES, readable && (number, out) == (0, [0, 0]))]);
    if readable && (number, out) != (0, [0, 0]) {
        run.fault(SAME_BYTES, first.file);
    }
}

/// In the first stored tile by rows, element e of the second and a later one of the first are
/// unreadable: element comes before page.
fn second_first(run: &mut Run, random: &mut Prng) {
    let mut first = Model::at_random(random);
    let elements = first.page.elements.len();
    let Some(tile) = first.tiles.keys().next().copied().filter(|_| elements > 1) else {
        return;
    };
    let mut second = first.clone();
    let earlier = random.below(elements - 1);
    let later = random.between(earlier + 1, elements - 1);
    second.spoil(tile, earlier, random);
    first.spoil(tile, later, random);
    let (of_first, of_second) = (first.file(random), second.file(random));
    let said = expected((&first, &of_first), (&second, &of_second));
    let left = Side::new(&of_first.bytes, u32::from(first.index), elements);
    let right = Side::new(&of_second.bytes, u32::from(second.index), elements);
    let right_one = matches!(said, Comparison::Refused(Whose::Second, _));
    if run.comparison_is(SORT, &left, &right, &said) {
        run.comparisons.reached_if(&[(SECOND_FIRST, right_one)]);
    }
}

/// The values of each readable part of a model, one after the other.
fn parts(model: &mut Model) -> impl Iterator<Item = &mut Vec<u32>> {
    model.tiles.values_mut().flatten().filter_map(Part::values)
}

/// The last bit of one to five cells inside the grid.
fn some_values(_: &mut Model, second: &mut Model, random: &mut Prng) {
    let mut tiles: Vec<u32> = second.tiles.keys().copied().collect();
    random.shuffle(&mut tiles);
    for tile in tiles.into_iter().take(random.between(1, 5)) {
        let cells = cells_inside(second, tile);
        let (at, element) = (random.pick(&cells), random.below(second.page.elements.len()));
        if let Part::Stored(values) | Part::Packed(values) =
            &mut second.tiles.get_mut(&tile).expect("a tile")[element]
        {
            values[at] ^= 1;
        }
    }
}

/// The numbers inside a tile of its cells that the grid has.
fn cells_inside(model: &Model, tile: u32) -> Vec<usize> {
    let page = &model.page;
    let across = page.tiles_across() as u32;
    let (top, left) = (tile / across * page.tile_rows, tile % across * page.tile_columns);
    let inside = |at: &usize| {
        let (row, column) = (*at as u32 / page.tile_columns, *at as u32 % page.tile_columns);
        top + row < page.grid_rows && left + column < page.grid_columns
    };
    (0..(page.tile_rows * page.tile_columns) as usize).filter(inside).collect()
}

fn every_value(first: &mut Model, second: &mut Model, random: &mut Prng) {
    for tile in 0..first.page.tile_count() as u32 {
        if !first.tiles.contains_key(&tile) {
            first.store(tile, random);
        }
    }
    second.tiles.clone_from(&first.tiles);
    for values in parts(second) {
        for value in values {
            *value ^= 1;
        }
    }
}

fn drop_tiles(model: &mut Model, random: &mut Prng) {
    let tiles: Vec<u32> = model.tiles.keys().copied().collect();
    let always = random.pick(&tiles);
    model.tiles.retain(|tile, _| *tile != always && !random.one_in(3));
}

fn fill_bits(first: &mut Model, second: &mut Model, random: &mut Prng) {
    let tiles: Vec<u32> = first.tiles.keys().copied().collect();
    let tile = random.pick(&tiles);
    let fills: Vec<u32> = first.page.elements.iter().map(fill).collect();
    for (part, fill) in first.tiles.get_mut(&tile).expect("a tile").iter_mut().zip(fills) {
        if let Part::Stored(values) | Part::Packed(values) = part {
            values.fill(fill);
        }
    }
    second.tiles.clone_from(&first.tiles);
    second.tiles.remove(&tile);
}

fn all_fills(_: &mut Model, second: &mut Model, _: &mut Prng) {
    for element in &mut second.page.elements {
        let other = fill(element) ^ 1;
        element.set_range_and_fill(0, 1000, other);
    }
}

fn no_tile(first: &mut Model, second: &mut Model, random: &mut Prng) {
    first.tiles.clear();
    second.tiles.clear();
    all_fills(first, second, random);
}

fn repacked(_: &mut Model, second: &mut Model, random: &mut Prng) {
    second.index = random.byte();
    for part in second.tiles.values_mut().flatten() {
        *part = match part {
            Part::Stored(values) => Part::Packed(values.clone()),
            Part::Packed(values) => Part::Stored(values.clone()),
            Part::Unreadable(content, number) => Part::Unreadable(content.clone(), *number),
        };
    }
}

fn other_words(_: &mut Model, second: &mut Model, random: &mut Prng) {
    let page = &mut second.page;
    page.checksums = !page.checksums;
    page.filler = Filler::Junk(random.long());
    page.time_modified = 1 + random.long() / 2;
    page.label = text_of(9, random);
    for (number, element) in page.elements.iter_mut().enumerate() {
        let own = fill(element);
        element.set_range_and_fill(1, 7, own);
        element.name = format!("other_{number}").into_bytes();
        element.unit = text_of(5, random);
    }
}

/// What a tile holds where the grid has no cell is none of a comparison's business.
fn past_the_edge(_: &mut Model, second: &mut Model, _: &mut Prng) {
    let tiles: Vec<u32> = second.tiles.keys().copied().collect();
    for tile in tiles {
        let inside = cells_inside(second, tile);
        for part in second.tiles.get_mut(&tile).expect("a tile") {
            if let Part::Stored(values) | Part::Packed(values) = part {
                for (at, value) in values.iter_mut().enumerate() {
                    *value ^= u32::from(!inside.contains(&at));
                }
            }
        }
    }
}

fn mixed(first: &mut Model, second: &mut Model, random: &mut Prng) {
    some_values(first, second, random);
    drop_tiles(first, random);
    drop_tiles(second, random);
    if random.one_in(2) {
        all_fills(first, second, random);
    }
}

fn other_grid(_: &mut Model, second: &mut Model, random: &mut Prng) {
    if random.one_in(2) {
        second.page.grid_rows += 1;
    } else {
        second.page.grid_columns += 1;
    }
    second.page.list_whole_grid();
}

fn other_tile(_: &mut Model, second: &mut Model, random: &mut Prng) {
    if random.one_in(2) {
        second.page.tile_rows += 1;
    } else {
        second.page.tile_columns += 1;
    }
    second.page.list_whole_grid();
    second.tiles.clear();
}

/// A Float for an Integer or an integer-coded one, either of these for the other, or for a Float.
fn other_type(first: &mut Model, second: &mut Model, random: &mut Prng) {
    let at = random.below(first.page.elements.len());
    let types = [INTEGER, INTEGER_CODED, FLOAT];
    let name = first.page.elements[at].name.clone();
    if first.page.elements[at].type_code == SHORT {
        first.page.elements[at] = Element::new(random.pick(&types), &name);
        let cells = (first.page.tile_rows * first.page.tile_columns) as usize;
        for parts in first.tiles.values_mut() {
            parts[at] = Part::Stored(vec![1; cells]);
        }
        second.tiles.clone_from(&first.tiles);
    }
    let own = first.page.elements[at].type_code;
    let other: Vec<u8> = types.into_iter().filter(|type_code| *type_code != own).collect();
    second.page.elements[at] = Element::new(random.pick(&other), &name);
}

fn one_more(_: &mut Model, second: &mut Model, _: &mut Prng) {
    if second.page.elements.len() == 16 {
        second.page.elements.pop();
        for parts in second.tiles.values_mut() {
            parts.pop();
        }
        return;
    }
    second.page.elements.push(Element::new(SHORT, b"one_more"));
    let cells = (second.page.tile_rows * second.page.tile_columns) as usize;
    for parts in second.tiles.values_mut() {
        parts.push(Part::Stored(vec![0; cells]));
    }
}

fn unlike_and_spoilt(first: &mut Model, second: &mut Model, random: &mut Prng) {
    spoil(first, random);
    spoil(second, random);
    other_grid(first, second, random);
}

/// A tile and an element at random.
fn any_part(model: &Model, random: &mut Prng) -> (u32, usize) {
    let tiles: Vec<u32> = model.tiles.keys().copied().collect();
    (random.pick(&tiles), random.below(model.page.elements.len()))
}

fn spoil(model: &mut Model, random: &mut Prng) {
    let (tile, element) = any_part(model, random);
    model.spoil(tile, element, random);
}

fn one_part(first: &mut Model, second: &mut Model, random: &mut Prng) {
    let (tile, element) = any_part(first, random);
    first.spoil(tile, element, random);
    second.spoil(tile, element, random);
}

fn both_anywhere(first: &mut Model, second: &mut Model, random: &mut Prng) {
    for _ in 0..random.between(1, 3) {
        spoil(first, random);
        spoil(second, random);
    }
}
