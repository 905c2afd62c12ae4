//! Sheets moved into pages: right ones, bad ones, and fronts that do not fit.

use gvrs_tests::page::{Element, Page, FLOAT, INTEGER, INTEGER_CODED, SHORT};
use gvrs_tests::prng::Prng;
use gvrs_tests::second::sheets::{Sheet, UNREAD};

use super::ask::MoveIn;
use super::pages::{empty_page, front, move_in, of_sides, sheet, NO_SCORES};
use crate::run::Run;

const SORT: &str = "sheets moved in";
const BAD_SORT: &str = "bad sheets";
const UNFIT_SORT: &str = "fronts that do not fit";
const ORDER_SORT: &str = "sheets with two faults";
const RANDOM_SORT: &str = "sheets with bytes changed at random";

const NONE_KEPT: &str = "a sheet all -1: no tile record";
const ALL_KEPT: &str = "a sheet with a score in each tile";
const SOME_KEPT: &str = "a sheet of which some tiles are all -1";
const PAST_GRID: &str = "a kept tile that reaches past the grid";
const EVERY_ROOM: &str = "buffers of every length";

/// What is done to a right sheet to make it a bad one.
type Damage = (&'static str, fn(&mut Vec<u8>, &Sheet, &mut Prng));

const DAMAGES: [Damage; 20] = [
    ("no byte", |bytes, _, _| bytes.clear()),
    ("fewer than nine bytes", |bytes, _, random| bytes.truncate(random.below(9))),
    ("the length one more", |bytes, _, _| add_to_length(bytes, 1)),
    ("the length one less", |bytes, _, _| add_to_length(bytes, u32::MAX)),
    ("the length with its own four bytes", |bytes, _, _| add_to_length(bytes, 4)),
    ("the length of the scores alone", |bytes, _, _| add_to_length(bytes, 5u32.wrapping_neg())),
    ("the length little-endian", |bytes, _, _| bytes[..4].reverse()),
    ("version 0", |bytes, _, _| bytes[4] = 0),
    ("version 2", |bytes, _, _| bytes[4] = 2),
    ("no row", |bytes, _, _| bytes[5..7].fill(0)),
    ("no column", |bytes, _, _| bytes[7..9].fill(0)),
    ("rows little-endian", |bytes, _, _| bytes[5..7].reverse()),
    ("rows and columns exchanged", |bytes, sheet, _| exchange(bytes, sheet)),
    ("a byte more, the length as it was", |bytes, _, _| bytes.push(0xff)),
    ("a byte more, the length with it", |bytes, _, _| lengthen(bytes, 1)),
    ("two bytes more, the length with them", |bytes, _, _| lengthen(bytes, 2)),
    ("a byte less, the length as it was", |bytes, _, _| bytes.truncate(bytes.len() - 1)),
    ("two bytes less, the length with them", |bytes, _, _| shorten(bytes)),
    ("a score outside", |bytes, _, random| set_score(bytes, random.pick(&NO_SCORES), random)),
    ("the last score outside", |bytes, _, random| {
        let at = bytes.len() - 2;
        bytes[at..].copy_from_slice(&random.pick(&NO_SCORES).to_be_bytes());
    }),
];

/// What is done to a page whose front would fit.
type Unfit = (&'static str, fn(&mut Page, &mut Prng));

const UNFITS: [Unfit; 9] = [
    ("one row more", |page, _| page.grid_rows += 1),
    ("one column more", |page, _| page.grid_columns += 1),
    ("two elements", |page, _| page.elements.push(short(b"another", UNREAD))),
    ("an Integer", |page, _| page.elements = vec![of_type(INTEGER)]),
    ("an integer-coded element", |page, _| page.elements = vec![of_type(INTEGER_CODED)]),
    ("a Float", |page, _| page.elements = vec![of_type(FLOAT)]),
    ("a fill of 0", |page, _| page.elements = vec![short(b"a", 0)]),
    ("a fill of -2", |page, _| page.elements = vec![short(b"a", -2)]),
    ("a fill of 255", |page, _| page.elements = vec![short(b"a", 255)]),
];

pub fn section(run: &mut Run, random: &mut Prng) {
    for thing in [NONE_KEPT, ALL_KEPT, SOME_KEPT, PAST_GRID, EVERY_ROOM] {
        run.sheets.want(thing);
    }
    for (what, _) in DAMAGES {
        run.sheets.want(what);
    }
    for (what, _) in UNFITS {
        run.sheets.want(what);
    }
    for _ in 0..run.times(3000) {
        right(run, random);
    }
    for _ in 0..run.times(150) {
        bad(run, random);
        unfit(run, random);
        in_order(run, random);
    }
    for _ in 0..run.times(3000) {
        changed(run, random);
    }
    every_room(run, random);
}

fn right(run: &mut Run, random: &mut Prng) {
    let (page, given) = move_in(random);
    let Some(laid) = run.sheet_in(SORT, &given) else {
        return;
    };
    let Ok(file) = laid else {
        return run.fault(&format!("{SORT}: refused"), &given.sheet);
    };
    let asked = crate::reads::ask::Asked::new(&file);
    let tiles = page.tile_count() as u64;
    let kept = |tile: &u64| !asked.cells_with(*tile, 0, 0).bits().is_empty();
    let number = (0..tiles).filter(kept).count() as u64;
    let [past_rows, past_columns] =
        [page.grid_rows % page.tile_rows != 0, page.grid_columns % page.tile_columns != 0];
    for (thing, holds) in [
        (NONE_KEPT, number == 0),
        (ALL_KEPT, number == tiles),
        (SOME_KEPT, 0 < number && number < tiles),
        (PAST_GRID, (past_rows || past_columns) && kept(&(tiles - 1))),
    ] {
        if holds {
            run.sheets.reached(thing);
        }
    }
}

fn bad(run: &mut Run, random: &mut Prng) {
    for (what, damage) in DAMAGES {
        let (_, mut given) = move_in(random);
        let sheet = Sheet::read(&given.sheet).expect("a right sheet");
        let before = given.sheet.clone();
        damage(&mut given.sheet, &sheet, random);
        // Little-endian or exchanged it can be the same.
        if given.sheet != before && run.sheet_in_refused(BAD_SORT, &given, 12) {
            run.sheets.reached(what);
        }
    }
}

fn unfit(run: &mut Run, random: &mut Prng) {
    for (what, damage) in UNFITS {
        let page = empty_page(random);
        let bytes = sheet(&page, random).bytes();
        let mut other = page.clone();
        damage(&mut other, random);
        let given = MoveIn { front: front(&other, random), time: 1, sheet: bytes };
        if run.sheet_in_refused(UNFIT_SORT, &given, 12) {
            run.sheets.reached(what);
        }
    }
}

/// A front at fault decides before a bad sheet, that before a short buffer; of a front that passes, 12
/// comes before 13.
fn in_order(run: &mut Run, random: &mut Prng) {
    let (_, given) = move_in(random);
    let faults: [(u32, fn(&mut MoveIn)); 5] = [
        (1, |given| given.front[0] = b'G'),
        (2, |given| given.front[13] = 3),
        (3, |given| given.front[20] = 7),
        (3, |given| given.front.push(0)),
        (12, |given| given.time = 0),
    ];
    for (number, fault) in faults {
        let mut given = given.clone();
        fault(&mut given);
        run.sheet_in_refused(ORDER_SORT, &given, number);
        given.sheet[4] = 9;
        run.sheet_in_refused(ORDER_SORT, &given, number);
    }
    // Stage 4: tiles of 4,097 rows.
    let mut wide = of_sides([2, 2], [1, 1], random);
    wide.tile_rows = 4097;
    let front = front(&wide, random);
    run.sheet_in_refused(ORDER_SORT, &MoveIn { front, time: 0, sheet: Vec::new() }, 4);
}

fn changed(run: &mut Run, random: &mut Prng) {
    let (_, mut given) = move_in(random);
    for _ in 0..random.between(1, 3) {
        let at = random.below(given.sheet.len());
        given.sheet[at] = random.byte();
    }
    if random.one_in(4) {
        let at = random.below(given.front.len());
        given.front[at] ^= 1 << random.below(8);
    }
    run.sheet_in(RANDOM_SORT, &given);
}

fn every_room(run: &mut Run, random: &mut Prng) {
    let page = of_sides([3, 3], [2, 2], random);
    let given =
        MoveIn { front: front(&page, random), time: 1, sheet: sheet(&page, random).bytes() };
    let Some(Ok(file)) = run.sheet_in(SORT, &given) else {
        return run.fault("a sheet of 3 by 3 is not moved in", &given.sheet);
    };
    let step = if run.small { 37 } else { 1 };
    let all = (0..file.len() + 9).step_by(step).all(|room| {
        let laid = run.sheet_in_room(SORT, &given, room);
        laid.is_some_and(|laid| laid.is_ok() == (room >= file.len()))
    });
    if all {
        run.sheets.reached(EVERY_ROOM);
    }
}

// What is done to sheets and to pages.

fn add_to_length(bytes: &mut [u8], more: u32) {
    let (stated, _) = bytes.split_first_chunk_mut::<4>().expect("a length");
    *stated = u32::from_be_bytes(*stated).wrapping_add(more).to_be_bytes();
}

fn exchange(bytes: &mut [u8], sheet: &Sheet) {
    bytes[5..7].copy_from_slice(&sheet.columns.to_be_bytes());
    bytes[7..9].copy_from_slice(&sheet.rows.to_be_bytes());
}

fn lengthen(bytes: &mut Vec<u8>, by: u32) {
    bytes.extend(vec![0; by as usize]);
    add_to_length(bytes, by);
}

fn shorten(bytes: &mut Vec<u8>) {
    bytes.truncate(bytes.len() - 2);
    add_to_length(bytes, 2u32.wrapping_neg());
}

fn set_score(bytes: &mut [u8], score: i16, random: &mut Prng) {
    let at = 9 + 2 * random.below((bytes.len() - 9) / 2);
    bytes[at..at + 2].copy_from_slice(&score.to_be_bytes());
}

fn short(name: &[u8], fill: i16) -> Element {
    let mut element = Element::new(SHORT, name);
    element.set_range_and_fill(0, 1000, fill as u16 as u32);
    element
}

/// One whose fill has the bits of a Short's -1.
fn of_type(type_code: u8) -> Element {
    let mut element = Element::new(type_code, b"a");
    element.set_range_and_fill(0, 1000, 0xffff);
    element
}
