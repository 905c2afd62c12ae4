//! Every length of a buffer and of the cells, every index of a small grid, every bit of the time,
//! and any address in memory.

use gvrs_tests::library;
use gvrs_tests::page::Page;
use gvrs_tests::prng::Prng;
use gvrs_tests::second::lay_down::{lay_down, Given};

use super::ask::as_numbers;
use super::draft::Draft;
use super::read_back::done;
use crate::run::Run;

const ROOMS: &str = "every length of the buffer";
const CELLS: &str = "every number of cell bytes";
const INDEXES: &str = "every index by itself";
const TIMES: &str = "every bit of the time";

const ADDRESSES: &str = "a lay-down at eight addresses in memory";

pub fn section(run: &mut Run, random: &mut Prng) {
    run.lay_downs.want(ADDRESSES);
    for _ in 0..run.times(20) {
        let draft = Draft::short(1000, random);
        rooms(run, &draft);
        cells(run, &draft, random);
    }
    indexes(run, random);
    times(run, random);
    for _ in 0..run.times(300) {
        at_any_address(run, &Draft::short(1000, random));
    }
}

/// Up to one byte short: 13. Then done, with the bytes behind the file as they stood.
fn rooms(run: &mut Run, draft: &Draft) {
    let length = draft.file_length();
    let step = if run.small { 64 } else { 1 };
    for room in (0..length).step_by(step) {
        run.refused(ROOMS, "a shorter buffer", (&draft.given, room), 13);
    }
    for room in length..length + 20 {
        let laid = run.lay_down(ROOMS, &draft.given, room);
        if laid.is_some_and(|laid| as_numbers(&laid) != (0, length as u64)) {
            run.fault("a buffer that is long enough is refused", &draft.given.front);
        }
    }
}

/// Any number but the right one: 12.
fn cells(run: &mut Run, draft: &Draft, random: &mut Prng) {
    let right = draft.given.cells.len();
    let mut given = draft.given.clone();
    for number in 0..2 * right + 20 {
        given.cells.truncate(right);
        given.cells.resize(number, random.byte());
        if number != right {
            run.refused(CELLS, "another number", (&given, draft.file_length()), 12);
        }
    }
}

/// Each index of the grid alone; those behind it, and some far behind it: 12.
fn indexes(run: &mut Run, random: &mut Prng) {
    for [rows, columns] in [[1, 1], [1, 7], [7, 1], [3, 4]] {
        let page = Page::of_sides([rows, columns], [1, 1]);
        let tiles = rows * columns;
        for index in 0..tiles {
            let draft = Draft::new(page.clone(), vec![index], random);
            done(run, INDEXES, &draft, 0, random);
        }
        let far = [0xffff, 0x1_0000, 0x7fff_ffff, 0x8000_0000, 0xffff_0000, 0xffff_ffff];
        for index in (tiles..tiles + 40).chain(far) {
            let draft = Draft::new(page.clone(), vec![index], random);
            let room = draft.file_length();
            run.refused(INDEXES, "outside the grid", (&draft.given, room), 12);
        }
    }
}

fn times(run: &mut Run, random: &mut Prng) {
    let mut draft = Draft::new(Page::plain(), vec![0], random);
    for bit in 0..64 {
        draft.given.time = 1 << bit;
        done(run, TIMES, &draft, 0, random);
    }
    draft.given.time = 0;
    run.refused(TIMES, "time zero", (&draft.given, draft.file_length()), 12);
}

/// Neither the answer nor the file depends on where in memory front, cells, buffer and indexes lie.
fn at_any_address(run: &mut Run, draft: &Draft) {
    let room = draft.file_length() + 5;
    let laid = lay_down(&draft.given, room);
    let Ok(file) = &laid else {
        return run.fault("a short draft is refused", &draft.given.front);
    };
    let mut same = true;
    for before in 0..8 {
        let (number, memory) = library_at(&draft.given, before, room);
        same &= number == 0
            && memory[before..before + file.len()] == **file
            && memory[..before].iter().all(|byte| *byte == 0xa7)
            && memory[before + file.len()..].iter().all(|byte| *byte == 0xa7);
    }
    if same {
        run.lay_downs.reached(ADDRESSES);
    } else {
        run.fault("another file at another address", file);
    }
}

/// The library's number, and the memory in which the buffer begins behind so many bytes.
fn library_at(given: &Given, before: usize, room: usize) -> (u32, Vec<u8>) {
    let moved = |bytes: &[u8]| [&vec![0xff; before], bytes, &[0xff; 16]].concat();
    let (front, cells) = (moved(&given.front), moved(&given.cells));
    let mut memory = vec![0xa7; before + room + 16];
    let mut out = [0];
    let number = library::lay_down_into(
        &front[before..before + given.front.len()],
        given.time,
        &given.indexes,
        &cells[before..before + given.cells.len()],
        &mut memory[before..before + room],
        &mut out,
    );
    (number, memory)
}
