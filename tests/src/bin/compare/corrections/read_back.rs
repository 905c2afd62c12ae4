//! Closed pages: accepted by both checks, each cell by every route and each content as the map has
//! it.

use gvrs_tests::prng::Prng;
use gvrs_tests::second::cells::{Cell, Content, Spot};
use gvrs_tests::second::rectangles::{Area, Rectangle};
use gvrs_tests::session::Session;

use crate::reads::ask::{routes, Asked};
use crate::run::Run;

const SORT: &str = "corrected pages";

/// Cells of a page, of all elements together, up to which every one is read by every route.
const MOST_CELLS: usize = 120;
/// Cells read so of a larger page.
const SOME_CELLS: usize = 10;
/// Cells of a grid up to which the whole is read in one call for each element.
const MOST_IN_ONE: u128 = 3000;

pub const EVERY_CELL: &str = "a corrected page read back cell by cell";
pub const WHOLE_GRID: &str = "a corrected page read back in one call for each element";
pub const KINDS: [(u32, &str); 5] = [
    (32, "read back behind corrections: stored"),
    (33, "read back behind corrections: fill"),
    (34, "read back behind corrections: unpacked"),
    (11, "read back behind corrections: 11"),
    (14, "read back behind corrections: 14"),
];

pub fn want(run: &mut Run) {
    for thing in [EVERY_CELL, WHOLE_GRID].into_iter().chain(KINDS.map(|(_, thing)| thing)) {
        run.corrections.want(thing);
    }
}

/// The page of a session that is closed, with a compressor's index that some contents have.
pub fn read_back(run: &mut Run, session: &Session, compressor: u32, random: &mut Prng) {
    let page = session.page();
    run.expect(SORT, "closed", page, (0, 0));
    let asked = Asked::new(page);
    for element in 0..session.header.elements.len() as u64 {
        in_one_call(run, session, &asked, element, compressor);
        for tile in session.tiles.keys().copied().chain([0, session.tile_count - 1]) {
            content(run, session, &asked, tile, element);
        }
    }
    let spots = spots(run, session, random);
    for spot in &spots {
        cell(run, session, &asked, *spot, compressor, random);
    }
    run.corrections.read_back(spots.len());
}

/// The whole grid of an element.
fn in_one_call(run: &mut Run, session: &Session, asked: &Asked, element: u64, compressor: u32) {
    let (rows, columns) = (session.header.grid_rows, session.header.grid_columns);
    let grid = Rectangle { element, row: 0, column: 0, rows, columns };
    if grid.cells() > MOST_IN_ONE {
        return;
    }
    let memory = [asked.tile_cells()];
    let Some(area) = run.area_with(SORT, asked, grid, compressor, &memory) else {
        return;
    };
    let (kinds, bits) = grid.spots().map(|spot| session.cell(spot, compressor)).unzip();
    if area == (Area::Read { kinds, bits }) {
        run.corrections.reached(WHOLE_GRID);
    } else {
        run.fault(&format!("{SORT}: element {element} is not as the map has it"), asked.file);
    }
}

/// All cells of a small grid, some of another, mostly of tiles that are stored.
fn spots(run: &mut Run, session: &Session, random: &mut Prng) -> Vec<Spot> {
    let header = &session.header;
    let elements = header.elements.len();
    let cells = header.grid_rows * header.grid_columns * elements as u64;
    if cells <= MOST_CELLS as u64 && !run.small {
        run.corrections.reached(EVERY_CELL);
        let (rows, columns) = (header.grid_rows, header.grid_columns);
        let grid = |element| Rectangle { element, row: 0, column: 0, rows, columns };
        return (0..elements as u64).flat_map(|element| grid(element).spots()).collect();
    }
    let stored: Vec<u64> = session.tiles.keys().copied().collect();
    let across = header.grid_columns.div_ceil(header.tile_columns);
    let mut spot = |_| {
        let any = random.below(session.tile_count as usize) as u64;
        let tile = random.pick_any(&stored).filter(|_| !random.one_in(3)).unwrap_or(any);
        let inside = |side: u64, random: &mut Prng| random.below(side as usize) as u64;
        let row = tile / across * header.tile_rows + inside(header.tile_rows, random);
        let column = tile % across * header.tile_columns + inside(header.tile_columns, random);
        Spot {
            row: row.min(header.grid_rows - 1),
            column: column.min(header.grid_columns - 1),
            element: random.below(elements) as u64,
        }
    };
    (0..SOME_CELLS).map(&mut spot).collect()
}

/// By every route without an index, and by one of them with it.
fn cell(
    run: &mut Run,
    session: &Session,
    asked: &Asked,
    spot: Spot,
    compressor: u32,
    random: &mut Prng,
) {
    let routes = routes(random);
    for route in routes {
        if let Some(answer) = run.cell(SORT, asked, spot, route) {
            as_the_map_has_it(run, session, asked, spot, &answer, 256);
        }
    }
    let route = random.pick(&routes);
    if let Some(answer) = run.cell_with(SORT, asked, spot, route, compressor) {
        as_the_map_has_it(run, session, asked, spot, &answer, compressor);
    }
}

fn as_the_map_has_it(
    run: &mut Run,
    session: &Session,
    asked: &Asked,
    spot: Spot,
    answer: &Cell,
    compressor: u32,
) {
    let (kind, bits) = session.cell(spot, compressor);
    let (number, [_, found, ..]) = answer.as_numbers();
    if (number, found) != (kind, u64::from(bits)) {
        let text = format!("{SORT}: {spot:?}: {answer:x?}, the map has {kind}, {bits:x}");
        return run.fault(&text, asked.file);
    }
    let known = KINDS.iter().find(|(number, _)| *number == kind);
    run.corrections.reached(known.expect("a kind of a cell").1);
}

fn content(run: &mut Run, session: &Session, asked: &Asked, tile: u64, element: u64) {
    let Some(answer) = run.content(SORT, asked, tile, element) else {
        return;
    };
    let of_map = session.tiles.get(&tile).map(|contents| contents[element as usize].as_slice());
    let good = match (answer, of_map) {
        (Content::Present { start, length }, Some(bytes)) => {
            asked.file[start as usize..(start + length) as usize] == *bytes
        }
        (Content::Absent, None) | (Content::Refused((11, _)), Some(_)) => true,
        _ => false,
    };
    if !good {
        let text = format!("{SORT}: tile {tile}, element {element}: not as the map has it");
        run.fault(&text, asked.file);
    }
}
