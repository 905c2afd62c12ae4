//! What decides between certain, doubtful and unread: one odd score at every place, every pair of
//! odd scores, fills of every value, every score by itself.

use gvrs_tests::build::bytes_of;
use gvrs_tests::page::{Body, Element, Page, Tile, SHORT};
use gvrs_tests::prng::Prng;
use gvrs_tests::second::deeds::{
    Deed, Rule, CERTAIN, DOUBTFUL, FIRST, NO_SCORE, SCORE_RULE, SECOND, UNREAD,
};
use gvrs_tests::second::rectangles::Rectangle;

use super::scored::{edges, graded, packed, packed_page, say};
use crate::face::sample_sums::{page, rectangle};
use crate::reads::ask::Asked;
use crate::run::Run;

const PLACES_SORT: &str = "one odd score among others that are 950";
const PAIRS_SORT: &str = "pairs of scores";
const FILLS_SORT: &str = "fills of every value, and stored scores that equal them";
const SCORES_SORT: &str = "every score by itself";

/// A score, and the grade and the lowest of a rectangle of 950 with one such cell.
const ODD: [(i16, u32, i16); 11] = [
    (899, DOUBTFUL, 899),
    (900, CERTAIN, 900),
    (901, CERTAIN, 901),
    (999, CERTAIN, 950),
    (1000, CERTAIN, 950),
    (1001, DOUBTFUL, 950),
    (-1, UNREAD, 950),
    (0, DOUBTFUL, 0),
    (1, DOUBTFUL, 1),
    (32_767, DOUBTFUL, 950),
    (-32_768, DOUBTFUL, -32_768),
];

const STORED_OR_PACKED: [&str; 2] = ["stored", "packed"];
const PAIRS: &str = "every pair of odd scores";
const FILLS: &str = "every set of four tiles, stored scores and fills with the same bits";
const SCORES: [&str; 2] = [
    "each of 65,536 scores by itself, 101 of them certain",
    "each of 65,536 scores by itself, 501 of them certain by the second rule",
];
const PACKED_SCORES: &str = "scores by themselves, out of packed tiles";

/// Of packed contents.
const INDEX: u8 = 33;

/// A grid of four tiles, of which three reach over its edge.
const GRID: [u32; 2] = [7, 9];
const TILE: [u32; 2] = [4, 6];
/// The element that is judged; that before it has scores too.
const JUDGED: u64 = 1;

pub fn section(run: &mut Run, random: &mut Prng) {
    for thing in [PAIRS, FILLS, SCORES[0], SCORES[1], PACKED_SCORES] {
        run.deeds.want(thing);
    }
    every_place(run, random);
    pairs(run);
    fills(run);
    every_score(run, FIRST, 101, SCORES[0], random);
    every_score(run, SECOND, 501, SCORES[1], random);
    for first in [i16::MIN, -128, 768, i16::MAX - 255] {
        packed_scores(run, first, random);
    }
}

/// In tiles that are stored, then in tiles that are packed.
fn every_place(run: &mut Run, random: &mut Prng) {
    for odd in ODD {
        for (how, name) in STORED_OR_PACKED.iter().enumerate() {
            let things = ["in the grid", "past the grid's edge"]
                .map(|place| format!("{} in one cell {place}, {name}", odd.0));
            for thing in &things {
                run.deeds.want(thing);
            }
            for place in places(run) {
                let Some(file) = with_odd(odd.0, place, how == 1, random) else {
                    continue;
                };
                if at_place(run, &Asked::new(&file), odd, place) {
                    run.deeds.reached(&things[usize::from(is_outside(place))]);
                }
            }
        }
    }
}

/// Row and column of every cell of the tiles, past the grid's edge too.
fn places(run: &Run) -> impl Iterator<Item = [usize; 2]> {
    let (rows, columns) = (2 * TILE[0] as usize, 2 * TILE[1] as usize);
    let step = if run.small { 101 } else { 1 };
    (0..rows * columns).step_by(step).map(move |at| [at / columns, at % columns])
}

fn is_outside([row, column]: [usize; 2]) -> bool {
    row >= GRID[0] as usize || column >= GRID[1] as usize
}

/// The odd score decides where it is in the rectangle, and not where it is in a row, a column or an
/// element beside, or past the grid's edge.
fn at_place(run: &mut Run, asked: &Asked, odd: (i16, u32, i16), place: [usize; 2]) -> bool {
    let (score, grade, lowest) = odd;
    let other_element = Rectangle { element: 0, ..whole() };
    let right = is(run, asked, other_element, &certain());
    if is_outside(place) {
        return right & is(run, asked, whole(), &certain());
    }
    let is_score = score != NO_SCORE;
    let with_it = Deed::by_first(grade, u64::from(!is_score), Some(lowest));
    let by_itself = Deed::by_first(grade, u64::from(!is_score), is_score.then_some(score));
    right
        & is(run, asked, whole(), &with_it)
        & is(run, asked, one_cell(place), &by_itself)
        & is_certain_beside(run, asked, place)
}

fn is(run: &mut Run, asked: &Asked, rectangle: Rectangle, expected: &Deed) -> bool {
    run.deed_is(PLACES_SORT, asked, rectangle, u32::from(INDEX), expected)
}

fn certain() -> Deed {
    Deed::by_first(CERTAIN, 0, Some(950))
}

fn whole() -> Rectangle {
    let [rows, columns] = GRID.map(u64::from);
    Rectangle { element: JUDGED, row: 0, column: 0, rows, columns }
}

fn one_cell([row, column]: [usize; 2]) -> Rectangle {
    let [row, column] = [row, column].map(|at| at as u64);
    Rectangle { row, column, rows: 1, columns: 1, ..whole() }
}

/// All rows above and below the odd cell, and all columns left and right of it.
fn is_certain_beside(run: &mut Run, asked: &Asked, [row, column]: [usize; 2]) -> bool {
    let whole = whole();
    let [row, column] = [row, column].map(|at| at as u64);
    let beside = [
        Rectangle { rows: row, ..whole },
        Rectangle { row: row + 1, rows: whole.rows - row - 1, ..whole },
        Rectangle { columns: column, ..whole },
        Rectangle { column: column + 1, columns: whole.columns - column - 1, ..whole },
    ];
    let mut all = true;
    for rectangle in beside.into_iter().filter(|beside| beside.cells() > 0) {
        all &= is(run, asked, rectangle, &certain());
    }
    all
}

/// A page of 950, with one other score in the element that is judged; nothing where that tile
/// can't be packed.
fn with_odd(score: i16, place: [usize; 2], is_packed: bool, random: &mut Prng) -> Option<Vec<u8>> {
    let mut page = Page::of_sides(GRID, TILE);
    page.elements = vec![Element::new(SHORT, b"other"), Element::new(SHORT, b"score")];
    let [tile_rows, tile_columns] = TILE.map(|side| side as usize);
    let odd_tile = place[0] / tile_rows * 2 + place[1] / tile_columns;
    let odd_cell = place[0] % tile_rows * tile_columns + place[1] % tile_columns;
    for index in 0..4 {
        let mut scores = [[950; 24]; 2];
        if index == odd_tile {
            scores[JUDGED as usize][odd_cell] = score;
        }
        let [other, judged] = scores;
        let judged =
            if is_packed { packed(&page, &judged, INDEX, random)? } else { bytes(&judged) };
        let contents = vec![bytes(&other), judged];
        page.insert(0, Body::Tile(Tile { index: index as u32, contents }));
    }
    Some(bytes_of(&page))
}

fn bytes(scores: &[i16]) -> Vec<u8> {
    scores.iter().flat_map(|score| score.to_le_bytes()).collect()
}

/// Side by side in one tile, and one below the other in two.
fn pairs(run: &mut Run) {
    for first in edges(FIRST) {
        for second in edges(FIRST) {
            let files = [
                (page([1, 2], [1, 2], &[(0, &[first, second])]), [0, 0, 1, 2]),
                (page([2, 1], [1, 1], &[(1, &[second]), (0, &[first])]), [0, 0, 2, 1]),
            ];
            for (page, sides) in files {
                let file = bytes_of(&page);
                let expected = graded(FIRST, 0, vec![first, second]);
                let asked = Asked::new(&file);
                if run.deed_is(PAIRS_SORT, &asked, rectangle(sides), 256, &expected) {
                    run.deeds.reached(PAIRS);
                }
            }
        }
    }
}

/// Grid 3 by 4, tiles 2 by 2. Every stored score is the fill.
fn fills(run: &mut Run) {
    const CELLS: [u64; 4] = [4, 4, 2, 2];
    for score in edges(FIRST).into_iter().chain([950]) {
        let scores = [score; 4];
        for set in 0..16 {
            let stored = (0..4).filter(|tile| set >> tile & 1 == 1);
            let tiles: Vec<(u32, &[i16])> = stored.map(|tile| (tile, &scores[..])).collect();
            let mut page = page([3, 4], [2, 2], &tiles);
            page.elements[0].set_range_and_fill(0, 1000, score as u16 as u32);
            let absent = (0..4).filter(|tile| set >> tile & 1 == 0);
            let fills = absent.map(|tile| CELLS[tile]).sum();
            let grade = match score {
                _ if fills > 0 => UNREAD,
                NO_SCORE => UNREAD,
                900..=1000 => CERTAIN,
                _ => DOUBTFUL,
            };
            let expected = match score {
                NO_SCORE => Deed::by_first(grade, 12, None),
                _ => Deed::by_first(grade, fills, (set > 0).then_some(score)),
            };
            let file = bytes_of(&page);
            let asked = Asked::new(&file);
            if run.deed_is(FILLS_SORT, &asked, rectangle([0, 0, 3, 4]), 256, &expected) {
                run.deeds.reached(FILLS);
            }
        }
    }
}

/// 256 of them in a tile, of a page that says this rule; so many of all have to be certain.
fn every_score(run: &mut Run, rule: Rule, expected: usize, thing: &str, random: &mut Prng) {
    let (mut right, mut certain) = (0, 0);
    for high in (0..=255).step_by(if run.small { 85 } else { 1 }) {
        let scores: Vec<i16> = (0..=255).map(|low| i16::from_be_bytes([high, low])).collect();
        let mut page = page([16, 16], [16, 16], &[(0, &scores)]);
        if rule == SECOND {
            say(&mut page, &[(SCORE_RULE, 2)], random);
        }
        let file = bytes_of(&page);
        let answers = by_themselves(run, &Asked::new(&file), rule, &scores, &[0]);
        right += answers.len();
        certain += answers.iter().filter(|grade| **grade == CERTAIN).count();
    }
    if (right, certain) == (65_536, expected) {
        run.deeds.reached(thing);
    }
}

/// As many from this one on, in a packed tile.
fn packed_scores(run: &mut Run, first: i16, random: &mut Prng) {
    let scores: Vec<i16> = (0..=255).map(|more| first + more).collect();
    let file = packed_page(16, &scores, INDEX, random);
    let asked = Asked::new(&file);
    if by_themselves(run, &asked, FIRST, &scores, &[0, 256]).len() == 256 {
        run.deeds.reached(PACKED_SCORES);
    }
}

/// Each cell of a tile of 16 by 16 by itself: the grades, where all is as it has to be.
fn by_themselves(
    run: &mut Run,
    asked: &Asked,
    by: Rule,
    scores: &[i16],
    memories: &[usize],
) -> Vec<u32> {
    let mut grades = Vec::new();
    for (at, score) in (0..).zip(scores) {
        let cell = rectangle([at / 16, at % 16, 1, 1]);
        let answer = run.deed_with(SCORES_SORT, asked, cell, u32::from(INDEX), memories);
        match answer {
            Some(Deed::Graded { rule, grade, fills: 0, lowest: Some(lowest) })
                if (rule, lowest) == (by, *score) =>
            {
                grades.push(grade);
            }
            Some(Deed::Graded { rule, grade: UNREAD, fills: 1, lowest: None })
                if (rule, NO_SCORE) == (by, *score) =>
            {
                grades.push(UNREAD);
            }
            Some(answer) => run.fault(&format!("{SCORES_SORT}: {score}: {answer:?}"), asked.file),
            None => (),
        }
    }
    grades
}
