//! Rectangles inside the grid, of pages whose tiles are of every kind, as their descriptions have
//! them.

use gvrs_tests::build::build;
use gvrs_tests::library::{cells_into, Lent};
use gvrs_tests::page::Page;
use gvrs_tests::prng::Prng;
use gvrs_tests::random_page::random_page;
use gvrs_tests::second::cells::{FILL, STORED, UNPACKED};
use gvrs_tests::second::rectangles::{Area, Rectangle, Rooms};

use super::mixed::Mixed;
use crate::reads::ask::Asked;
use crate::reads::described::{fill, Described};
use crate::run::Run;

const SORT: &str = "rectangles of pages with tiles of every kind";
const PAGES_SORT: &str = "rectangles of pages at random";

const ONE_CELL: &str = "one cell";
const IN_ONE_TILE: &str = "within one tile";
const PARTS: &str = "parts of several tiles down and across";
const WHOLE_GRID: &str = "the whole grid, of several tiles";
const LAST_ROW: &str = "up to the last row";
const LAST_COLUMN: &str = "up to the last column";
const LAST_OF_BOTH: &str = "up to the last row and column, not from the first";
pub const FORMS: [&str; 7] =
    [ONE_CELL, IN_ONE_TILE, PARTS, WHOLE_GRID, LAST_ROW, LAST_COLUMN, LAST_OF_BOTH];
const EVERY_KIND: &str = "all five kinds in one rectangle";
const REFUSED_FIRST: &str = "11 or 14 in the first cell, and cells to read behind it";
const EQUAL_TO_FILL: [&str; 2] =
    ["a stored cell whose bits equal the fill", "an unpacked cell whose bits equal the fill"];
const OTHER_INDEX: &str = "with another index nothing is unpacked";
const USED_MEMORY: &str = "a memory as the call before has left it";
const ADDRESSES: &str = "a rectangle at eight addresses in memory";

/// Cells of a rectangle, so that packed tiles can be read without memory.
const MOST_CELLS: u64 = 400;

pub fn section(run: &mut Run, random: &mut Prng) {
    for thing in FORMS {
        run.face.want(thing);
    }
    let others = [EVERY_KIND, REFUSED_FIRST, OTHER_INDEX, USED_MEMORY, ADDRESSES];
    for thing in others.iter().chain(&EQUAL_TO_FILL) {
        run.face.want(thing);
    }
    let mut memory = Vec::new();
    for _ in 0..run.times(2500) {
        let mixed = Mixed::at_random(random);
        of_page(run, &mixed, &mut memory, random);
    }
    for _ in 0..run.times(2000) {
        any_page(run, &random_page(random), random);
    }
}

fn of_page(run: &mut Run, mixed: &Mixed, memory: &mut Vec<u32>, random: &mut Prng) {
    let described = mixed.described();
    let asked = Asked::new(&mixed.built.bytes);
    for _ in 0..4 {
        let rectangle = inside(&described, MOST_CELLS, random);
        let expected = mixed.area(rectangle);
        if run.area_is(SORT, &asked, rectangle, mixed.compressor, &expected) {
            note(run, &mixed.page, rectangle, &expected);
        }
        used_memory(run, &asked, rectangle, mixed.compressor, memory);
    }
    let rectangle = inside(&described, MOST_CELLS, random);
    let other = random.pick(&[256, mixed.compressor + 256, u32::MAX]);
    if let Some(Area::Read { kinds, .. }) = run.area(SORT, &asked, rectangle, other) {
        let read = kinds.iter().any(|kind| [UNPACKED, 14].contains(kind));
        if read {
            run.fault("an index above 255 is that of a content", asked.file);
        } else if kinds.contains(&11) {
            run.face.reached(OTHER_INDEX);
        }
    }
    at_any_address(run, &asked, rectangle, mixed.compressor);
}

/// Any page at random, asked with any index.
fn any_page(run: &mut Run, page: &Page, random: &mut Prng) {
    let built = build(page);
    let described = Described::new(page, &built);
    let asked = Asked::new(&built.bytes);
    for _ in 0..3 {
        let rectangle = inside(&described, MOST_CELLS, random);
        run.area(PAGES_SORT, &asked, rectangle, u32::from(random.byte()));
    }
}

/// A rectangle of at most so many cells, with a cell in it that mostly is of a tile with a record.
pub fn inside(described: &Described, most: u64, random: &mut Prng) -> Rectangle {
    let page = described.page;
    let spot = described.spot(described.at_random(random)).expect("in the grid");
    let [grid_rows, grid_columns, tile_rows, tile_columns] =
        [page.grid_rows, page.grid_columns, page.tile_rows, page.tile_columns].map(u64::from);
    let (row, rows) = stretch(spot.row, grid_rows, tile_rows, most, random);
    let left = most / rows;
    let (column, columns) = stretch(spot.column, grid_columns, tile_columns, left, random);
    Rectangle { element: spot.element, row, column, rows, columns }
}

/// A start and a length of at most so many, with one place in it.
fn stretch(at: u64, side: u64, tile: u64, most: u64, random: &mut Prng) -> (u64, u64) {
    let [before, behind] = [at, side - at - 1];
    let some = |reach: u64, random: &mut Prng| random.long() % (reach.min(2 * tile) + 1);
    let (back, on) = match random.below(6) {
        0 => (0, 0),
        1 => (at % tile, behind.min(tile - 1 - at % tile)),
        2 => (before, behind),
        3 => (some(before, random), behind),
        4 => (before, some(behind, random)),
        _ => (some(before, random), some(behind, random)),
    };
    let on = on.min(most - 1);
    let back = back.min(most - 1 - on);
    (at - back, back + on + 1)
}

/// Counts what the rectangle is an instance of.
fn note(run: &mut Run, page: &Page, rectangle: Rectangle, answer: &Area) {
    let [kinds, bits] = answer.taken();
    let own_fill = fill(&page.elements[rectangle.element as usize]);
    let equal = |kind: u32| kinds.iter().zip(bits).any(|cell| cell == (&kind, &own_fill));
    let readable = |kind: &u32| [STORED, FILL, UNPACKED].contains(kind);
    let true_of_it = [
        (EVERY_KIND, [STORED, FILL, UNPACKED, 11, 14].iter().all(|kind| kinds.contains(kind))),
        (EQUAL_TO_FILL[0], equal(STORED)),
        (EQUAL_TO_FILL[1], equal(UNPACKED)),
        (REFUSED_FIRST, !readable(&kinds[0]) && kinds.iter().any(readable)),
    ];
    let forms = forms(page, rectangle);
    for (thing, _) in forms.iter().chain(&true_of_it).filter(|(_, holds)| *holds) {
        run.face.reached(thing);
    }
}

/// How a rectangle lies in the grid and in its tiles.
pub fn forms(page: &Page, rectangle: Rectangle) -> [(&'static str, bool); FORMS.len()] {
    let Rectangle { row, column, rows, columns, .. } = rectangle;
    let [tile_rows, tile_columns, grid_rows, grid_columns] =
        [page.tile_rows, page.tile_columns, page.grid_rows, page.grid_columns].map(u64::from);
    let down = (row + rows - 1) / tile_rows - row / tile_rows;
    let across = (column + columns - 1) / tile_columns - column / tile_columns;
    let parts = row % tile_rows > 0 && column % tile_columns > 0;
    let (last_row, last_column) = (row + rows == grid_rows, column + columns == grid_columns);
    let whole = (rows, columns) == (grid_rows, grid_columns);
    [
        (ONE_CELL, rows * columns == 1),
        (IN_ONE_TILE, down + across == 0 && rows > 1 && columns > 1),
        (PARTS, down > 0 && across > 0 && parts),
        (WHOLE_GRID, whole && down + across > 0),
        (LAST_ROW, last_row),
        (LAST_COLUMN, last_column),
        (LAST_OF_BOTH, last_row && last_column && row > 0 && column > 0),
    ]
}

/// One memory for every call: its numbers are those of other tiles and pages.
fn used_memory(
    run: &mut Run,
    asked: &Asked,
    rectangle: Rectangle,
    compressor: u32,
    memory: &mut Vec<u32>,
) {
    memory.resize(memory.len().max(asked.tile_cells()), 0);
    let answer = asked.checked.area(rectangle, compressor, Rooms::of(u64::MAX));
    if is_the_answer(&asked.lent, rectangle, compressor, memory, &answer) {
        run.face.reached(USED_MEMORY);
    } else {
        run.fault(&format!("{USED_MEMORY}: {rectangle:?}"), asked.file);
    }
}

/// The answer does not depend on where the file lies in memory, nor on what surrounds it.
fn at_any_address(run: &mut Run, asked: &Asked, rectangle: Rectangle, compressor: u32) {
    let answer = asked.checked.area(rectangle, compressor, Rooms::of(u64::MAX));
    let mut lent = vec![0; asked.tile_cells()];
    let same = (0..8).all(|before| {
        let mut memory = vec![0xff; before];
        memory.extend(asked.file);
        memory.extend([0xff; 16]);
        let moved = &memory[before..before + asked.file.len()];
        is_the_answer(moved, rectangle, compressor, &mut lent, &answer)
    });
    if same {
        run.face.reached(ADDRESSES);
    } else {
        run.fault("a rectangle: another answer at another address", asked.file);
    }
}

/// Whether the library gives this answer, with room for exactly its cells.
pub fn is_the_answer(
    file: &[u8],
    rectangle: Rectangle,
    compressor: u32,
    memory: &mut [u32],
    answer: &Area,
) -> bool {
    let taken = answer.taken();
    let [mut kinds, mut bits] = taken.map(|numbers| vec![0; numbers.len()]);
    let mut out = [0];
    let lent = Lent { memory, kinds: &mut kinds, bits: &mut bits };
    let number = cells_into(file, rectangle, compressor, lent, &mut out);
    (number, out[0]) == answer.as_numbers() && [&kinds[..], &bits] == taken
}
