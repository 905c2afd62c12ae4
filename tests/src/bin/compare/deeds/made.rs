//! Rectangles inside the grid, of pages whose tiles are of every kind, as their descriptions have
//! them.

use gvrs_tests::build::build;
use gvrs_tests::page::Page;
use gvrs_tests::prng::Prng;
use gvrs_tests::random_page::random_page;
use gvrs_tests::second::deeds::{Deed, Rule, CERTAIN, DOUBTFUL, NO_SCORE, SECOND, UNREAD};
use gvrs_tests::second::rectangles::Rectangle;

use super::ask::is_the_deed;
use super::scored::{Account, Kept, Scored};
use crate::face::made::{forms, inside, FORMS};
use crate::face::mixed::Mixed;
use crate::reads::ask::Asked;
use crate::reads::described::{fill, Described};
use crate::run::Run;

const SORT: &str = "deeds of pages of scores";
const MIXED_SORT: &str = "deeds of pages with tiles of every kind";
const PAGES_SORT: &str = "deeds of pages at random";

const CERTAIN_OF_BOTH: &str = "certain: stored and unpacked cells";
const OTHERS_IN_TILE: &str = "certain, though its tiles have other scores too";
const TOO_LOW: &str = "doubtful: a score below the mark, none above the scale";
const TOO_HIGH: &str = "doubtful: a score above the scale, none below the mark";
const BELOW_0: &str = "doubtful: the lowest is below 0";
const UNREAD_GOOD: &str = "unread: fills, and no score but certain ones";
const UNREAD_BAD: &str = "unread: fills, and other scores than certain ones";
const UNREAD_NONE: &str = "unread: fills alone, no lowest";
const CERTAIN_FILL: &str = "unread: the fill's value would be a certain score";
const EQUAL_TO_FILL: [&str; 2] = [
    "not unread: a stored cell whose bits equal the fill",
    "not unread: an unpacked cell whose bits equal the fill",
];
const NO_SCORES: [&str; 3] = [
    "unread: no fill, but a stored -1",
    "unread: no fill, but an unpacked -1",
    "unread: no fill, each cell -1, no lowest",
];
const OTHER_TILE: &str = "graded, though another tile is refused";
const OTHER_ELEMENT: &str = "graded, though another element of its tiles is refused";
const THEN_14: &str = "11, and 14 behind it";
const THEN_11: &str = "14, and 11 behind it";
const WITH_FILLS: &str = "11 or 14, and fills in the rectangle";
const LATER_IN_FILE: &str = "11 or 14, not of the first such record in the file";
const LATER_BY_COLUMNS: &str = "11 or 14, not of the first such cell by columns";
const OTHER_INDEX: &str = "11: with an index above 255 nothing is unpacked";
const USED_MEMORY: &str = "a memory as the call before has left it";
const BY_SECOND: [&str; 3] =
    ["certain by the second rule", "doubtful by the second rule", "unread by the second rule"];
const ADDRESSES: &str = "a page of scores at eight addresses in memory";

/// Cells of a rectangle, so that packed tiles can be read without memory.
const MOST_CELLS: u64 = 250;

pub fn section(run: &mut Run, random: &mut Prng) {
    let graded =
        [CERTAIN_OF_BOTH, OTHERS_IN_TILE, TOO_LOW, TOO_HIGH, BELOW_0, UNREAD_GOOD, UNREAD_BAD];
    let others = [UNREAD_NONE, CERTAIN_FILL, OTHER_TILE, OTHER_ELEMENT, THEN_14, THEN_11];
    let last = [WITH_FILLS, LATER_IN_FILE, LATER_BY_COLUMNS, OTHER_INDEX, USED_MEMORY, ADDRESSES];
    for thing in graded
        .iter()
        .chain(&others)
        .chain(&EQUAL_TO_FILL)
        .chain(&NO_SCORES)
        .chain(&BY_SECOND)
        .chain(&last)
        .chain(&FORMS)
    {
        run.deeds.want(thing);
    }
    let mut memory = Vec::new();
    for _ in 0..run.times(2000) {
        of_page(run, &Scored::at_random(random), &mut memory, random);
    }
    for _ in 0..run.times(800) {
        let mixed = Mixed::at_random(random);
        any_page(run, MIXED_SORT, &mixed.described(), mixed.compressor, random);
    }
    for _ in 0..run.times(800) {
        let page = random_page(random);
        let built = build(&page);
        let compressor = u32::from(random.byte());
        any_page(run, PAGES_SORT, &Described::new(&page, &built), compressor, random);
    }
}

fn of_page(run: &mut Run, scored: &Scored, memory: &mut Vec<u32>, random: &mut Prng) {
    let asked = Asked::new(&scored.built.bytes);
    for _ in 0..4 {
        let rectangle = scored.rectangle(MOST_CELLS, random);
        let account = scored.account(rectangle);
        let expected = account.deed();
        if run.deed_is(SORT, &asked, rectangle, scored.compressor, &expected) {
            run.deeds.reached_if(&forms(&scored.page, rectangle));
            note(run, scored, rectangle, &account);
        }
        memory.resize(memory.len().max(asked.tile_cells()), 0);
        if is_the_deed(&asked.lent, rectangle, scored.compressor, memory, &expected) {
            run.deeds.reached(USED_MEMORY);
        } else {
            run.fault(&format!("{USED_MEMORY}: {rectangle:?}"), asked.file);
        }
    }
    let rectangle = scored.rectangle(MOST_CELLS, random);
    with_other_index(run, scored, &asked, rectangle, random);
    at_any_address(run, &asked, rectangle, scored.compressor);
}

/// Any element and rectangle of any page.
fn any_page(run: &mut Run, sort: &str, described: &Described, compressor: u32, random: &mut Prng) {
    let asked = Asked::new(&described.built.bytes);
    for _ in 0..3 {
        let rectangle = inside(described, MOST_CELLS, random);
        run.deed(sort, &asked, rectangle, compressor);
    }
}

/// Counts what the rectangle is an instance of.
fn note(run: &mut Run, scored: &Scored, rectangle: Rectangle, account: &Account) {
    match account.deed() {
        Deed::Refused(_) => note_refused(run, rectangle, account),
        Deed::Graded { grade, lowest, .. } => {
            let mut scores = account.scores();
            scores.retain(|score| *score != NO_SCORE);
            let element = &scored.page.elements[rectangle.element as usize];
            let own_fill = fill(element) as i16;
            let Rule { mark, scale } = scored.rule;
            let low = scores.iter().any(|score| *score < mark);
            let high = scores.iter().any(|score| *score > scale);
            let both = !account.stored.is_empty() && !account.unpacked.is_empty();
            run.deeds.reached_if(&[
                (CERTAIN_OF_BOTH, grade == CERTAIN && both),
                (OTHERS_IN_TILE, grade == CERTAIN && has_others(scored, rectangle)),
                (TOO_LOW, grade == DOUBTFUL && low && !high),
                (TOO_HIGH, grade == DOUBTFUL && high && !low),
                (BELOW_0, grade == DOUBTFUL && lowest.is_some_and(|score| score < 0)),
                (UNREAD_GOOD, grade == UNREAD && !scores.is_empty() && !low && !high),
                (UNREAD_BAD, grade == UNREAD && (low || high)),
                (UNREAD_NONE, grade == UNREAD && scores.is_empty()),
                (CERTAIN_FILL, grade == UNREAD && scored.rule.is_certain(own_fill)),
                (EQUAL_TO_FILL[0], grade != UNREAD && account.stored.contains(&own_fill)),
                (EQUAL_TO_FILL[1], grade != UNREAD && account.unpacked.contains(&own_fill)),
                (NO_SCORES[0], account.fills == 0 && account.stored.contains(&NO_SCORE)),
                (NO_SCORES[1], account.fills == 0 && account.unpacked.contains(&NO_SCORE)),
                (NO_SCORES[2], account.fills == 0 && scores.is_empty()),
            ]);
            for (thing, of) in BY_SECOND.into_iter().zip([CERTAIN, DOUBTFUL, UNREAD]) {
                run.deeds.reached_if(&[(thing, grade == of && scored.rule == SECOND)]);
            }
            note_around(run, scored, rectangle);
        }
    }
}

/// The page has something that is refused, and not in this rectangle.
fn note_around(run: &mut Run, scored: &Scored, rectangle: Rectangle) {
    let refused = |element: u64, met: bool| {
        scored.kept(element).any(|(tile, kept)| {
            matches!(kept, Kept::Refused(_)) && meets(&scored.page, rectangle, tile) == met
        })
    };
    let elements = 0..scored.page.elements.len() as u64;
    let mut others = elements.filter(|element| *element != rectangle.element);
    run.deeds.reached_if(&[
        (OTHER_TILE, refused(rectangle.element, false)),
        (OTHER_ELEMENT, others.any(|element| refused(element, true))),
    ]);
}

/// Some tile of the rectangle has a score that is not certain.
fn has_others(scored: &Scored, rectangle: Rectangle) -> bool {
    let other = |score: &i16| !scored.rule.is_certain(*score);
    scored.kept(rectangle.element).any(|(tile, kept)| match kept {
        Kept::Stored(scores) | Kept::Unpacked(scores) => {
            meets(&scored.page, rectangle, tile) && scores.iter().any(other)
        }
        Kept::Refused(_) => false,
    })
}

/// Whether a tile has cells of the rectangle.
fn meets(page: &Page, rectangle: Rectangle, tile: u32) -> bool {
    let across = page.tiles_across() as u64;
    let (down, right) = (u64::from(tile) / across, u64::from(tile) % across);
    let both = |first: u64, length: u64, tile: u64, side: u32| {
        let side = u64::from(side);
        first < (tile + 1) * side && tile * side < first + length
    };
    both(rectangle.row, rectangle.rows, down, page.tile_rows)
        && both(rectangle.column, rectangle.columns, right, page.tile_columns)
}

fn note_refused(run: &mut Run, rectangle: Rectangle, account: &Account) {
    let refused = &account.refused;
    let (_, (number, place)) = refused.iter().min().expect("a refused cell");
    let columns = rectangle.columns as usize;
    let by_columns = |(at, _): &&(usize, _)| (at % columns, at / columns);
    let first_by_columns = refused.iter().min_by_key(by_columns).expect("a refused cell");
    let other_too = refused.iter().any(|(_, (other, _))| other != number);
    run.deeds.reached_if(&[
        (THEN_14, *number == 11 && other_too),
        (THEN_11, *number == 14 && other_too),
        (WITH_FILLS, account.fills > 0),
        (LATER_IN_FILE, refused.iter().any(|(_, (_, other))| other < place)),
        (LATER_BY_COLUMNS, first_by_columns.1 .1 != *place),
    ]);
}

/// Above 255 no index is that of a content.
fn with_other_index(
    run: &mut Run,
    scored: &Scored,
    asked: &Asked,
    rectangle: Rectangle,
    random: &mut Prng,
) {
    let other = random.pick(&[256, scored.compressor + 256, u32::MAX]);
    let answer = run.deed(SORT, asked, rectangle, other);
    let account = scored.account(rectangle);
    let packed = !account.unpacked.is_empty() || !account.refused.is_empty();
    match answer {
        Some(Deed::Refused((11, _))) if packed => run.deeds.reached(OTHER_INDEX),
        Some(Deed::Graded { .. }) if !packed => (),
        Some(answer) => run.fault(&format!("{OTHER_INDEX}: {answer:?}"), asked.file),
        None => (),
    }
}

/// The answer does not depend on where the file lies in memory, nor on what surrounds it.
fn at_any_address(run: &mut Run, asked: &Asked, rectangle: Rectangle, compressor: u32) {
    let answer = asked.checked.deed(rectangle, compressor);
    let mut lent = vec![0; asked.tile_cells()];
    let same = (0..8).all(|before| {
        let mut memory = vec![0xff; before];
        memory.extend(asked.file);
        memory.extend([0xff; 16]);
        let moved = &memory[before..before + asked.file.len()];
        is_the_deed(moved, rectangle, compressor, &mut lent, &answer)
    });
    if same {
        run.deeds.reached(ADDRESSES);
    } else {
        run.fault("a deed: another answer at another address", asked.file);
    }
}
