//! Laid-down pages: their bytes as the builder has them, accepted by both checks, each cell and
//! content as it was given.

use gvrs_tests::build::build;
use gvrs_tests::prng::Prng;
use gvrs_tests::second::cells::{Cell, Content};

use super::draft::Draft;
use crate::reads::ask::Asked;
use crate::reads::described::{Described, Inside};
use crate::run::Run;

const SORT: &str = "laid-down pages";

/// Cells of a page, of all elements together, up to which every one is read back.
const MOST_CELLS: usize = 300;
/// Cells read back of a larger page, and of one whose file is long.
const SOME_CELLS: usize = 12;
const FEW_CELLS: usize = 4;
const LONG_FILE: usize = 1_000_000;

const STORED: &str = "a stored cell read back";
const FILL: &str = "a fill read back";
const TYPES: [&str; 4] = ["Integer", "integer-coded", "Float", "Short"];
const CONTENT: &str = "a content read back as the bytes given";
const EVERY_CELL: &str = "pages read back cell by cell";

pub fn want(run: &mut Run) {
    for name in TYPES {
        run.lay_downs.want(&format!("{STORED}: {name}"));
        run.lay_downs.want(&format!("{FILL}: {name}"));
    }
    run.lay_downs.want(CONTENT);
    run.lay_downs.want(EVERY_CELL);
}

/// Lays down a draft at which nothing is wrong, in a buffer with this much room behind the file. The
/// file, if it is as the builder has it and both checks accept it.
pub fn laid_as_built(run: &mut Run, sort: &str, draft: &Draft, behind: usize) -> Option<Vec<u8>> {
    let file = match run.lay_down(sort, &draft.given, draft.file_length() + behind)? {
        Ok(file) => file,
        Err(refusal) => {
            let text = format!("{sort}: {refusal:?} of a draft at which nothing is wrong");
            run.fault(&text, &draft.given.front);
            return None;
        }
    };
    run.expect(SORT, sort, &file, (0, 0));
    let good = file == draft.as_built() && file.len() == draft.file_length();
    if !good {
        run.fault(&format!("{sort}: the file is not as the builder has it"), &file);
    }
    good.then_some(file)
}

/// The same, and reads the file back. True if all is as given.
pub fn done(run: &mut Run, sort: &str, draft: &Draft, behind: usize, random: &mut Prng) -> bool {
    match laid_as_built(run, sort, draft, behind) {
        Some(file) => read_back(run, draft, &file, random),
        None => false,
    }
}

fn read_back(run: &mut Run, draft: &Draft, file: &[u8], random: &mut Prng) -> bool {
    let page = draft.laid_page();
    let built = build(&page);
    let described = Described::new(&page, &built);
    let asked = Asked::new(file);
    let cells = cells_to_read(run, &described, random);
    let contents = contents_to_read(&described, &cells);
    let mut good = true;
    for inside in &cells {
        good &= cell_as_given(run, draft, &described, &asked, *inside, random);
    }
    for (tile, element) in &contents {
        good &= content_as_given(run, draft, &described, &asked, *tile, *element);
    }
    run.lay_downs.read_back(cells.len(), contents.len());
    good
}

fn cells_to_read(run: &mut Run, described: &Described, random: &mut Prng) -> Vec<Inside> {
    let page = described.page;
    let cells = page.grid_rows as usize * page.grid_columns as usize * page.elements.len();
    if cells <= MOST_CELLS && !run.small {
        run.lay_downs.reached(EVERY_CELL);
        described.all()
    } else {
        let long = described.built.bytes.len() >= LONG_FILE;
        let number = if long { FEW_CELLS } else { SOME_CELLS };
        (0..number).map(|_| described.at_random(random)).collect()
    }
}

/// The contents that these cells are in, each once.
fn contents_to_read(described: &Described, cells: &[Inside]) -> Vec<(usize, usize)> {
    let content = |inside: &Inside| (described.index(inside.tile), inside.element);
    let mut contents: Vec<(usize, usize)> = cells.iter().map(content).collect();
    contents.sort_unstable();
    contents.dedup();
    contents
}

/// By every route: the bytes given, at their place in the file, where the tile is listed; else the
/// fill.
fn cell_as_given(
    run: &mut Run,
    draft: &Draft,
    described: &Described,
    asked: &Asked,
    inside: Inside,
    random: &mut Prng,
) -> bool {
    let spot = described.spot(inside).expect("in the grid");
    let expected = described.cell(inside);
    if !run.cell_is_by_all(SORT, asked, spot, expected, random) {
        return false;
    }
    let number = number_listed(draft, described.index(inside.tile));
    let (kind, type_code, good) = match (expected, number) {
        (Cell::Stored { type_code, place, .. }, Some(number)) => {
            let own = cell_given(draft, number, inside);
            let at = place as usize;
            (STORED, type_code, asked.file[at..at + own.len()] == *own)
        }
        (Cell::Fill { type_code, .. }, None) => (FILL, type_code, true),
        _ => (FILL, 0, false),
    };
    if good {
        run.lay_downs.reached(&format!("{kind}: {}", TYPES[usize::from(type_code)]));
    } else {
        run.fault(&format!("{SORT}: {spot:?} is not as given"), asked.file);
    }
    good
}

/// The number of a tile among those listed.
fn number_listed(draft: &Draft, tile: usize) -> Option<usize> {
    draft.given.indexes.iter().position(|index| *index as usize == tile)
}

/// The bytes given of one cell.
fn cell_given(draft: &Draft, number: usize, inside: Inside) -> &[u8] {
    let size = draft.page.elements[inside.element].cell_size();
    let number_inside = inside.cell.0 * draft.page.tile_columns as usize + inside.cell.1;
    let at = size * number_inside;
    &draft.cells_of(number, inside.element)[at..at + size]
}

fn content_as_given(
    run: &mut Run,
    draft: &Draft,
    described: &Described,
    asked: &Asked,
    tile: usize,
    element: usize,
) -> bool {
    let expected = described.content(tile, element);
    if !run.content_is(SORT, asked, (tile as u64, element as u64), expected) {
        return false;
    }
    let good = match (expected, number_listed(draft, tile)) {
        (Content::Present { start, length }, Some(number)) => {
            let part = &asked.file[start as usize..(start + length) as usize];
            part == draft.cells_of(number, element)
        }
        (Content::Absent, None) => return true,
        _ => false,
    };
    if good {
        run.lay_downs.reached(CONTENT);
    } else {
        run.fault(&format!("{SORT}: tile {tile}, element {element}: not as given"), asked.file);
    }
    good
}
