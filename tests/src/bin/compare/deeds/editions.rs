//! Req 08: the rule that a page says by its metadata records. Sets of record IDs, names that are nearly
//! the rule's, records before, between and behind the tiles and among many of other names; that the
//! check's refusals and 10 come before its 12, and that before 11 and 14.

use gvrs_tests::build::{build, bytes_of};
use gvrs_tests::keys::alike;
use gvrs_tests::page::{Body, Metadata, Page};
use gvrs_tests::prng::Prng;
use gvrs_tests::second::chain::{METADATA, TILE};
use gvrs_tests::second::deeds::{Deed, Rule, FIRST, SCORE_RULE, SECOND};
use gvrs_tests::second::rectangles::Rectangle;

use super::scored::{graded, list_metadata, say, Scored};
use crate::face::sample_sums::{page, rectangle};
use crate::reads::ask::Asked;
use crate::run::Run;

const SETS_SORT: &str = "record IDs under the name of the rule";
const NAMES_SORT: &str = "names that are nearly the rule's";
const MANY_SORT: &str = "the rule among 3,000 metadata records of other names";
const BROKEN_SORT: &str = "metadata records that the check refuses, and that say no rule";
const PAGES_SORT: &str = "pages of scores that say no rule";

const FIRST_SAID: &str = "the first rule: no record, or ID 1";
const SECOND_SAID: &str = "the second rule: ID 2";
const WRONG_SAID: &str = "12: another ID, or both";
const PLACES: [&str; 3] =
    ["records of the rule before the tiles", "between the tiles", "behind the tiles"];
const NAMES: &str = "records of other names say nothing";
const MANY: [&str; 3] = ["the rule is the first of 3,000 records", "in the middle", "the last"];
const NINE: &str = "9, though the records say no rule";
const TEN: &str = "10, though the records say no rule";
const TWELVE_TOO: &str = "12 for the rectangle or the element too";
const BEFORE_11_AND_14: &str = "12 for the rule, where cells are refused too";

/// IDs, and the rule that they say. Of four bytes: 258 and 65,538 begin as 2 does, the next is 2 in
/// the other order, the last two are -1 and -2.
const SETS: [(&[u32], Option<Rule>); 20] = [
    (&[], Some(FIRST)),
    (&[1], Some(FIRST)),
    (&[2], Some(SECOND)),
    (&[1, 2], None),
    (&[2, 1], None),
    (&[0], None),
    (&[3], None),
    (&[0, 1], None),
    (&[0, 2], None),
    (&[1, 3], None),
    (&[2, 3], None),
    (&[3, 2], None),
    (&[1, 2, 3], None),
    (&[257], None),
    (&[258], None),
    (&[65_538], None),
    (&[0x0200_0000], None),
    (&[0x8000_0002], None),
    (&[u32::MAX], None),
    (&[u32::MAX - 1], None),
];

const NEARLY: [&[u8]; 14] = [
    b"Score_rule",
    b"score_Rule",
    b"score_rulE",
    b"SCORE_RULE",
    b"score_rul",
    b"score_rule2",
    b"score_rule_2",
    b"score_rulf",
    b"rcore_rule",
    b"score__rule",
    b"scorerule",
    b"score",
    b"rule",
    b"xscore_rule",
];

/// Of a compressed content, which is one byte and no whole content.
const INDEX: u8 = 7;

pub fn section(run: &mut Run, random: &mut Prng) {
    let things = [FIRST_SAID, SECOND_SAID, WRONG_SAID, NAMES, NINE, TEN, TWELVE_TOO];
    for thing in things.iter().chain(&PLACES).chain(&MANY).chain(&[BEFORE_11_AND_14]) {
        run.deeds.want(thing);
    }
    for (ids, rule) in SETS {
        for place in PLACES {
            in_place(run, ids, rule, place);
        }
        for _ in 0..run.times(20) {
            anywhere(run, ids, rule, random);
        }
    }
    for name in NEARLY {
        nearly(run, name, random);
    }
    for place in MANY {
        many(run, place, random);
    }
    broken(run);
    for _ in 0..run.times(200) {
        of_page(run, &Scored::at_random(random), random);
    }
}

/// A row of two cells, each in a tile of its own.
fn two_scores(scores: [i16; 2]) -> Page {
    page([1, 2], [1, 1], &[(0, &scores[..1]), (1, &scores[1..])])
}

fn keys(ids: &[u32]) -> Vec<(&[u8], u32)> {
    ids.iter().map(|id| (SCORE_RULE, *id)).collect()
}

/// What the row says.
fn deed(rule: Option<Rule>, scores: [i16; 2]) -> Deed {
    match rule {
        Some(rule) => graded(rule, 0, scores.to_vec()),
        None => Deed::Refused((12, 0)),
    }
}

/// The records one behind the other at one place.
fn in_place(run: &mut Run, ids: &[u32], rule: Option<Rule>, place: &str) {
    let scores = [9_500, 10_000];
    let mut page = two_scores(scores);
    for (number, id) in ids.iter().enumerate() {
        let tiles = page.of_type(TILE);
        let at = match place {
            "between the tiles" => tiles[0] + 1 + number,
            "behind the tiles" => tiles[1] + 1 + number,
            _ => tiles[0],
        };
        page.insert(at, Body::Metadata(Metadata::new(SCORE_RULE, *id)));
    }
    if !ids.is_empty() {
        page.insert(
            0,
            Body::MetadataDirectory(page.of_type(METADATA).iter().map(|at| at + 1).collect()),
        );
    }
    if is_said(run, SETS_SORT, &page, rule, scores) && !ids.is_empty() {
        run.deeds.reached(place);
    }
}

/// The same scores and others, where the records stand anywhere and hold anything else; then with
/// the first cell compressed.
fn anywhere(run: &mut Run, ids: &[u32], rule: Option<Rule>, random: &mut Prng) {
    for scores in [[9_500, 10_000], [950, 950], [9_499, 10_000], [9_500, 10_001], [900, 1_000]] {
        let mut page = two_scores(scores);
        if !ids.is_empty() {
            say(&mut page, &keys(ids), random);
        }
        if is_said(run, SETS_SORT, &page, rule, scores) {
            run.deeds.reached(match rule {
                Some(FIRST) => FIRST_SAID,
                Some(_) => SECOND_SAID,
                None => WRONG_SAID,
            });
        }
    }
    let mut page = two_scores([9_500, 10_000]);
    say(&mut page, &keys(ids), random);
    let tile = page.of_type(TILE)[0];
    if let Body::Tile(tile) = &mut page.records[tile].body {
        tile.contents[0] = vec![INDEX];
    }
    let built = build(&page);
    let asked = Asked::new(&built.bytes);
    for (compressor, number) in [(INDEX, 14), (INDEX + 1, 11)] {
        let refused = match rule {
            Some(_) => (number, built.starts[tile] as u64),
            None => (12, 0),
        };
        let right = run.deed_is(
            SETS_SORT,
            &asked,
            rectangle([0, 0, 1, 2]),
            u32::from(compressor),
            &Deed::Refused(refused),
        );
        run.deeds.reached_if(&[(BEFORE_11_AND_14, right && rule.is_none())]);
    }
}

/// The row, and one that passes the grid, which is 10 by every rule.
fn is_said(run: &mut Run, sort: &str, page: &Page, rule: Option<Rule>, scores: [i16; 2]) -> bool {
    let file = bytes_of(page);
    let asked = Asked::new(&file);
    let past = Deed::Refused((10, 0));
    let expected = deed(rule, scores);
    if run.deed_is(sort, &asked, rectangle([0, 0, 1, 3]), 256, &past) && rule.is_none() {
        run.deeds.reached(TEN);
    }
    run.deed_is(sort, &asked, rectangle([0, 0, 1, 2]), 256, &expected)
}

/// With any ID, alone and beside a record of the rule.
fn nearly(run: &mut Run, name: &[u8], random: &mut Prng) {
    let scores = [9_500, 10_000];
    for id in [1, 2, 3] {
        for (ids, rule) in [(&[][..], FIRST), (&[1], FIRST), (&[2], SECOND)] {
            let mut keys = keys(ids);
            keys.push((name, id));
            let mut page = two_scores(scores);
            say(&mut page, &keys, random);
            if is_said(run, NAMES_SORT, &page, Some(rule), scores) {
                run.deeds.reached(NAMES);
            }
        }
    }
}

/// Names of ten bytes, as many as the rule's, which is the first, the last or between.
fn many(run: &mut Run, place: &str, random: &mut Prng) {
    let scores = [9_500, 10_000];
    let count = run.times(3_000);
    let at = match place {
        "in the middle" => count / 2,
        "the last" => count,
        _ => 0,
    };
    for (ids, rule) in
        [(&[2][..], Some(SECOND)), (&[1, 2], None), (&[258], None), (&[], Some(FIRST))]
    {
        let mut page = two_scores(scores);
        let first = page.records.len();
        let mut records: Vec<Metadata> =
            (0..count).map(|number| Metadata::new(&alike(10, number), 2)).collect();
        for id in ids {
            records.insert(at, Metadata::new(SCORE_RULE, *id));
        }
        for (more, record) in records.into_iter().enumerate() {
            page.insert(first + more, Body::Metadata(record));
        }
        list_metadata(&mut page, random);
        if is_said(run, MANY_SORT, &page, rule, scores) {
            run.deeds.reached(place);
        }
    }
}

/// A directory that leaves one record out, and a pair that two records have.
fn broken(run: &mut Run) {
    for (ids, listed) in
        [(&[3, 4][..], 1), (&[2, 2], 2), (&[1, 1], 2), (&[1, 2, 2], 3), (&[2, 1], 0)]
    {
        let mut page = two_scores([9_500, 10_000]);
        let first = page.records.len();
        for (more, id) in ids.iter().enumerate() {
            page.insert(first + more, Body::Metadata(Metadata::new(SCORE_RULE, *id)));
        }
        let entries = (first..first + listed).collect();
        page.insert(first + ids.len(), Body::MetadataDirectory(entries));
        let file = bytes_of(&page);
        let asked = Asked::new(&file);
        let refused = Deed::Refused((9, 16));
        for sides in [[0, 0, 1, 2], [0, 0, 1, 3], [0, 0, 1, 0]] {
            if run.deed_is(BROKEN_SORT, &asked, rectangle(sides), 256, &refused) {
                run.deeds.reached(NINE);
            }
        }
    }
}

/// Whether a record says the first rule.
fn says_first(page: &Page) -> bool {
    page.records.iter().any(|record| match &record.body {
        Body::Metadata(metadata) => metadata.name == SCORE_RULE && metadata.id == 1,
        _ => false,
    })
}

/// A page at random with records that contradict its rule, whatever its tiles are.
fn of_page(run: &mut Run, scored: &Scored, random: &mut Prng) {
    let mut page = scored.page.clone();
    let other = match random.below(4) {
        0 => 0,
        1 => 3,
        2 => random.integer() | 4,
        _ => u32::MAX,
    };
    let both: &[u32] = match (scored.rule, says_first(&page)) {
        (SECOND, _) => &[1],
        (_, true) => &[2],
        (_, false) => &[1, 2],
    };
    let contradiction = if random.one_in(2) { &[other][..] } else { both };
    say(&mut page, &keys(contradiction), random);
    let file = bytes_of(&page);
    let asked = Asked::new(&file);
    let short = scored.rectangle(60, random);
    let wrong = Deed::Refused((12, 0));
    if run.deed_is(PAGES_SORT, &asked, short, scored.compressor, &wrong) {
        let refused_too = !scored.account(short).refused.is_empty();
        run.deeds.reached_if(&[(BEFORE_11_AND_14, refused_too)]);
    }
    let empty = Rectangle { rows: 0, ..short };
    if run.deed_is(PAGES_SORT, &asked, empty, scored.compressor, &wrong) {
        run.deeds.reached(TWELVE_TOO);
    }
    let past = Rectangle { row: u64::from(page.grid_rows), ..short };
    if run.deed_is(PAGES_SORT, &asked, past, scored.compressor, &Deed::Refused((10, 0))) {
        run.deeds.reached(TEN);
    }
}
