//! Rectangles at the ceilings: strips of a grid of 65,536 by 65,536, each within a second; rooms
//! for 2^32 cells; all of 65,536 tiles; and the largest tiles, which a memory of as many numbers
//! lets a call unpack just once.

use std::time::{Duration, Instant};

use gvrs_tests::build::bytes_of;
use gvrs_tests::page::{Body, Element, Page, Tile, INTEGER, SHORT};
use gvrs_tests::prng::Prng;
use gvrs_tests::second::predict::Predictor;
use gvrs_tests::second::rectangles::{Area, Rectangle};

use super::made::is_the_answer;
use crate::packed::contents::{good_of, Form};
use crate::reads::ask::Asked;
use crate::reads::long_files::page_of_many_tiles;
use crate::run::Run;

const SORT: &str = "rectangles at the ceilings";

const ROWS: &str = "eight rows of 65,536 by 65,536 cells, within a second";
const COLUMNS: &str = "eight columns of 65,536 by 65,536 cells, within a second";
const NO_ROOM: &str = "13: 2^32 cells, and as many less one column";
const MANY_TILES: &str = "every cell of 65,536 tiles, within a second";
const LARGEST_SHORTS: &str = "a packed tile of 524,288 Shorts, that many numbers of memory";
const LARGEST_INTEGERS: &str = "a packed tile of 262,144 Integers, that many numbers of memory";

const SIDE: u64 = 65_536;
/// Numbers of memory that let every tile be unpacked once.
const ALWAYS_ENOUGH: usize = 524_288;

pub fn section(run: &mut Run, random: &mut Prng) {
    for thing in [ROWS, COLUMNS, NO_ROOM, MANY_TILES, LARGEST_SHORTS, LARGEST_INTEGERS] {
        run.face.want(thing);
    }
    strips(run, random);
    many_tiles(run, random);
    largest(run, SHORT, [4096, 128], LARGEST_SHORTS, random);
    largest(run, INTEGER, [512, 512], LARGEST_INTEGERS, random);
}

/// Asks both with these memories, then for the time of the library's call with the last of them.
fn in_time(
    run: &mut Run,
    asked: &Asked,
    rectangle: Rectangle,
    compressor: u32,
    memories: &[usize],
    thing: &str,
) {
    let Some(answer) = run.area_with(SORT, asked, rectangle, compressor, memories) else {
        return;
    };
    let mut memory = vec![0; memories.last().copied().unwrap_or(0)];
    // The shortest of three calls, as other work may come between.
    let mut shortest = Duration::MAX;
    for _ in 0..3 {
        let begin = Instant::now();
        let same = is_the_answer(&asked.lent, rectangle, compressor, &mut memory, &answer);
        shortest = shortest.min(begin.elapsed());
        if !same {
            run.fault(&format!("{thing}: another answer to the same call"), asked.file);
        }
    }
    if shortest < Duration::from_secs(1) {
        run.face.reached(thing);
    } else {
        run.fault(&format!("{thing}: {shortest:?}"), asked.file);
    }
}

/// Seven tiles of 65,536 have a record: stored, packed by the index named or by another, or
/// malformed.
fn strips(run: &mut Run, random: &mut Prng) {
    let tile = [256, 256];
    let mut page = Page::of_sides([65_536, 65_536], tile);
    page.elements = vec![Element::new(SHORT, b"z")];
    page.elements[0].set_range_and_fill(0, 1000, 0xffff);
    let good = good_of(SHORT, tile, Predictor::Triangle, Form::Huffman, random);
    let packed = good.expect("a tile of 131,072 bytes can be packed").packed.bytes();
    let compressor = u32::from(packed[0]);
    let stored = random.bytes(2 * SIDE as usize);
    let other = [&[!packed[0]], &packed[1..]].concat();
    let cut = packed[..packed.len() - 1].to_vec();
    let tiles = [
        ([0, 0], &stored),
        ([0, 255], &packed),
        ([1, 3], &other),
        ([200, 1], &cut),
        ([201, 0], &packed),
        ([255, 0], &packed),
        ([255, 255], &stored),
    ];
    for ([row, column], content) in tiles {
        let contents = vec![content.clone()];
        page.insert(0, Body::Tile(Tile { index: row * 256 + column, contents }));
    }
    let file = bytes_of(&page);
    let asked = Asked::new(&file);
    run.page(SORT, &asked);
    run.page_said(SORT, &asked);
    run.element(SORT, &asked, 0);
    run.element_said(SORT, &asked, 0);
    for row in [0, 252, SIDE - 8] {
        let strip = Rectangle { element: 0, row, column: 0, rows: 8, columns: SIDE };
        in_time(run, &asked, strip, compressor, &[ALWAYS_ENOUGH, SIDE as usize], ROWS);
    }
    for column in [0, 252, SIDE - 8] {
        let strip = Rectangle { element: 0, row: 0, column, rows: SIDE, columns: 8 };
        in_time(run, &asked, strip, compressor, &[SIDE as usize], COLUMNS);
    }
    // Of the four tiles that meet here one is malformed and one packed.
    let corner = Rectangle { element: 0, row: 201 * 256 - 1, column: 255, rows: 2, columns: 2 };
    run.area(SORT, &asked, corner, compressor);
    no_room(run, &asked, compressor);
}

/// As many cells as 32 bits do not count, and none to take them.
fn no_room(run: &mut Run, asked: &Asked, compressor: u32) {
    let whole = Rectangle { element: 0, row: 0, column: 0, rows: SIDE, columns: SIDE };
    let mut all = true;
    for rectangle in [whole, Rectangle { columns: SIDE - 1, ..whole }] {
        for rooms in [[0, 0], [1, 1], [SIDE as usize, 0], [SIDE as usize; 2]] {
            let answer = run.area_in(SORT, asked, rectangle, compressor, rooms);
            all &= answer == Some(Area::Refused((13, 0)));
        }
    }
    if all {
        run.face.reached(NO_ROOM);
    } else {
        run.fault(NO_ROOM, asked.file);
    }
}

fn many_tiles(run: &mut Run, random: &mut Prng) {
    let file = bytes_of(&page_of_many_tiles(random));
    let asked = Asked::new(&file);
    run.page(SORT, &asked);
    run.page_said(SORT, &asked);
    let whole = Rectangle { element: 0, row: 0, column: 0, rows: 256, columns: 256 };
    in_time(run, &asked, whole, 256, &[0], MANY_TILES);
}

/// A thousand cells or so of a page of one tile. Each by itself would take an unpacking.
fn largest(run: &mut Run, type_code: u8, tile: [u32; 2], thing: &str, random: &mut Prng) {
    let good = good_of(type_code, tile, Predictor::Differencing, Form::Huffman, random);
    let good = good.expect("a tile of 1,048,576 bytes can be packed");
    let mut page = Page::of_sides(tile, tile);
    page.elements = vec![Element::new(type_code, b"z")];
    page.insert(0, Body::Tile(Tile { index: 0, contents: vec![good.packed.bytes()] }));
    let file = bytes_of(&page);
    let asked = Asked::new(&file);
    let [rows, columns] = tile.map(u64::from);
    let (compressor, cells) = (u32::from(good.packed.index), asked.tile_cells());
    let part = Rectangle { element: 0, row: rows - 17, column: 3, rows: 17, columns: 64 };
    in_time(run, &asked, part, compressor, &[ALWAYS_ENOUGH, cells], thing);
    let few = Rectangle { row: 0, column: columns - 1, rows: 2, columns: 1, ..part };
    run.area(SORT, &asked, few, compressor);
}
