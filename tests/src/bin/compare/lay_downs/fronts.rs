//! What a lay-down keeps of a front, and what it sets anew.

use gvrs_tests::build::{build, Field};
use gvrs_tests::page::{Element, Page, FLOAT, INTEGER, INTEGER_CODED, SHORT};
use gvrs_tests::prng::Prng;
use gvrs_tests::random_page::text_of;

use super::draft::{Draft, SET_FIELDS};
use super::read_back::{done, laid_as_built};
use crate::reads::described::fill;
use crate::run::Run;

const KEPT: &str = "fronts with anything in one field that is kept";
const SET: &str = "fronts with one bit in a field that is set anew";
const FILLS: &str = "fronts with a fill outside its range";

const TYPES: [u8; 4] = [INTEGER, INTEGER_CODED, FLOAT, SHORT];

const EQUAL_TO_FILL: &str = "a page of cells whose bits equal the fill, stored all the same";
const NO_TILE: &str = "a page of fills only, the fill outside its range";

/// Names of the fields that no rule looks at and no lay-down sets, but for ranges and fills.
const KEPT_FIELDS: [&str; 8] = [
    "reserved",
    "padding",
    "UUID",
    "levels",
    "coordinate",
    "continuous",
    "element padding",
    "method name",
];

/// Names of the fields that hold any UTF-8, which is kept.
const KEPT_TEXTS: [&str; 4] =
    ["element label", "element description", "element unit", "product label"];

pub fn section(run: &mut Run, random: &mut Prng) {
    for thing in [EQUAL_TO_FILL, NO_TILE] {
        run.lay_downs.want(thing);
    }
    for name in SET_FIELDS.iter().chain(&["checksum"]) {
        run.lay_downs.want(&set_anew(name));
    }
    for name in KEPT_FIELDS.into_iter().chain(KEPT_TEXTS) {
        run.lay_downs.want(&kept(name));
    }
    for _ in 0..run.times(100) {
        let draft = Draft::short(4000, random);
        fields_kept(run, &draft, random);
        fields_set(run, &draft, random);
    }
    fills_outside(run, random);
}

fn set_anew(name: &str) -> String {
    format!("set anew: {name}")
}

fn kept(name: &str) -> String {
    format!("kept: {name}")
}

fn with_bytes(draft: &Draft, field: &Field, bytes: &[u8]) -> Draft {
    let mut given = draft.given.clone();
    given.front[field.at..field.at + field.width].copy_from_slice(bytes);
    Draft { page: draft.page.clone(), given }
}

/// Anything, or any text, in one field of each name that is kept: the file has it there.
fn fields_kept(run: &mut Run, draft: &Draft, random: &mut Prng) {
    let mut fields = build(&draft.page).fields;
    fields.retain(|field| field.owner.is_none());
    for name in KEPT_FIELDS.into_iter().chain(KEPT_TEXTS) {
        let named: Vec<Field> = fields.iter().filter(|field| field.name == name).copied().collect();
        let Some(field) = random.pick_any(&named) else {
            continue;
        };
        let any = match KEPT_TEXTS.contains(&name) {
            true => text_of(field.width, random),
            false => random.bytes(field.width),
        };
        if laid_as_built(run, KEPT, &with_bytes(draft, &field, &any), 0).is_some() {
            run.lay_downs.reached(&kept(name));
        }
    }
}

/// One bit alone in each field that is set, of which none is left.
fn fields_set(run: &mut Run, draft: &Draft, random: &mut Prng) {
    for field in draft.fields_set() {
        let mut bytes = vec![0; field.width];
        bytes[random.below(field.width)] = 1 << random.below(8);
        if laid_as_built(run, SET, &with_bytes(draft, &field, &bytes), 0).is_some() {
            run.lay_downs.reached(&set_anew(field.name));
        }
    }
}

/// A fill below, above or between a range the wrong way round, and a NaN: with no tile, and with
/// all tiles stored and each cell's bits equal to the fill.
fn fills_outside(run: &mut Run, random: &mut Prng) {
    const RANGES: [[u32; 3]; 4] =
        [[10, 20, 5], [10, 20, 30], [20, 10, 0x8000_8000], [0, 0x3f80_0000, 0x7fc0_1234]];
    for type_code in TYPES {
        for [minimum, maximum, bits] in RANGES {
            let mut page = Page::of_sides([3, 5], [3, 3]);
            page.elements = vec![Element::new(type_code, b"z")];
            page.elements[0].set_range_and_fill(minimum, maximum, bits);
            let draft = Draft::new(page.clone(), Vec::new(), random);
            if done(run, FILLS, &draft, 0, random) {
                run.lay_downs.reached(NO_TILE);
            }
            let mut draft = Draft::of_all_tiles(page, random);
            fill_the_cells(&mut draft);
            if done(run, FILLS, &draft, 0, random) {
                run.lay_downs.reached(EQUAL_TO_FILL);
            }
        }
    }
}

/// Gives every cell the fill's bits.
fn fill_the_cells(draft: &mut Draft) {
    let element = &draft.page.elements[0];
    let bytes = fill(element).to_le_bytes();
    for cell in draft.given.cells.chunks_mut(element.cell_size()) {
        cell.copy_from_slice(&bytes[..cell.len()]);
    }
}
