//! Pages moved out to sheets: right ones, those that are no sheet, and the first cell by rows that is
//! refused.

use gvrs_tests::build::{build, bytes_of};
use gvrs_tests::page::{Element, SHORT};
use gvrs_tests::prng::Prng;
use gvrs_tests::random_page::random_page;
use gvrs_tests::second::deeds::SCORE_RULE;
use gvrs_tests::second::sheets::UNREAD;

use super::pages::{empty_page, Scored, Temper};
use crate::deeds::scored::say;
use crate::reads::ask::Asked;
use crate::run::Run;

const SORT: &str = "pages moved out";
const RULE_SORT: &str = "pages moved out, by their rule";
const OTHER_SORT: &str = "pages that are no sheet";
const CUT_SORT: &str = "pages cut or changed, moved out";

const DONE: &str = "a page moved out";
const OTHER_INDEX: &str = "11: with an index above 255 nothing is unpacked";
const REFUSED_11: &str = "11 of the first such cell";
const REFUSED_14: &str = "14 of the first such cell";
const WRONG: &str = "12 of a cell outside -1 to 1000";

const RULES: [(&str, &[(&[u8], u32)], bool); 7] = [
    ("no metadata record", &[], true),
    ("records of other names", &[(b"score_rules", 2), (b"score", 2), (b"Score_rule", 2)], true),
    ("score_rule 1", &[(SCORE_RULE, 1)], true),
    ("score_rule 2", &[(SCORE_RULE, 2)], false),
    ("score_rule 1 and 2", &[(SCORE_RULE, 1), (SCORE_RULE, 2)], false),
    ("score_rule 3", &[(SCORE_RULE, 3)], false),
    ("score_rule 1 and 257", &[(SCORE_RULE, 1), (SCORE_RULE, 257)], false),
];

const TEMPERS: [Temper; 6] = [
    Temper { absent: 0, refused: 0, wrong: 0 },
    Temper { absent: 3, refused: 0, wrong: 0 },
    Temper { absent: 3, refused: 0, wrong: 30 },
    Temper { absent: 5, refused: 5, wrong: 0 },
    Temper { absent: 5, refused: 5, wrong: 20 },
    Temper { absent: 0, refused: 3, wrong: 4 },
];

pub fn section(run: &mut Run, random: &mut Prng) {
    for thing in [DONE, OTHER_INDEX, REFUSED_11, REFUSED_14, WRONG] {
        run.sheets.want(thing);
    }
    for (what, _, _) in RULES {
        run.sheets.want(what);
    }
    for _ in 0..run.times(2500) {
        scored(run, random);
    }
    for _ in 0..run.times(100) {
        by_rule(run, random);
        no_sheet(run, random);
    }
    for _ in 0..run.times(600) {
        changed(run, random);
    }
    for _ in 0..run.times(400) {
        let file = bytes_of(&random_page(random));
        run.sheet_out(OTHER_SORT, &Asked::new(&file), u32::from(random.byte()));
    }
}

fn scored(run: &mut Run, random: &mut Prng) {
    let page = empty_page(random);
    let scored = Scored::new(page, random.pick(&TEMPERS), random);
    let asked = Asked::new(&scored.built.bytes);
    let thing = match run.sheet_out(SORT, &asked, scored.compressor) {
        Some(Ok(_)) => DONE,
        Some(Err((11, _))) => REFUSED_11,
        Some(Err((14, _))) => REFUSED_14,
        Some(Err((12, 0))) => WRONG,
        Some(Err(refusal)) => {
            return run.fault(&format!("{SORT}: {refusal:?}"), asked.file);
        }
        None => return,
    };
    run.sheets.reached(thing);
    let other = random.pick(&[256, scored.compressor + 256, u32::MAX]);
    if let Some(Err((11, _))) = run.sheet_out(SORT, &asked, other) {
        run.sheets.reached(OTHER_INDEX);
    }
}

/// The rule is asked behind the check, and before any cell.
fn by_rule(run: &mut Run, random: &mut Prng) {
    for (what, keys, first) in RULES {
        let temper = Temper { absent: 3, refused: if first { 0 } else { 3 }, wrong: 0 };
        let mut scored = Scored::new(empty_page(random), temper, random);
        if !keys.is_empty() {
            say(&mut scored.page, keys, random);
        }
        let built = build(&scored.page);
        let asked = Asked::new(&built.bytes);
        let answer = run.sheet_out(RULE_SORT, &asked, scored.compressor);
        match answer {
            Some(Ok(_)) if first => run.sheets.reached(what),
            Some(Err((12, 0))) if !first => run.sheets.reached(what),
            Some(_) => run.fault(&format!("{RULE_SORT}: {what}"), asked.file),
            None => (),
        }
    }
}

/// Another fill, another type, a second element: 12 before any cell, whatever is in the tiles.
fn no_sheet(run: &mut Run, random: &mut Prng) {
    let temper = Temper { absent: 3, refused: 3, wrong: 4 };
    let mut scored = Scored::new(empty_page(random), temper, random);
    let fill = random.pick(&[0i16, -2, 255, 1000, i16::MIN]);
    scored.page.elements[0].set_range_and_fill(0, 1000, fill as u16 as u32);
    let built = build(&scored.page);
    run.sheet_out_is(OTHER_SORT, &Asked::new(&built.bytes), scored.compressor, &Err((12, 0)));
    let mut page = empty_page(random);
    page.elements.push(Element::new(random.below(4) as u8, b"second"));
    let file = bytes_of(&page);
    run.sheet_out_is(OTHER_SORT, &Asked::new(&file), 0, &Err((12, 0)));
    let mut page = empty_page(random);
    page.elements = vec![Element::new(random.below(usize::from(SHORT)) as u8, b"score")];
    page.elements[0].set_range_and_fill(0, 1000, UNREAD as u16 as u32);
    let file = bytes_of(&page);
    run.sheet_out_is(OTHER_SORT, &Asked::new(&file), 0, &Err((12, 0)));
}

/// What the check refuses, and what it does not.
fn changed(run: &mut Run, random: &mut Prng) {
    let scored = Scored::new(empty_page(random), random.pick(&TEMPERS), random);
    let mut file = scored.built.bytes.clone();
    if random.one_in(3) {
        file.truncate(random.below(file.len()));
    } else {
        // Of the version's bytes and of the time opened more often than of others.
        let anywhere = random.below(file.len());
        let at = if random.one_in(10) { random.pick(&[12, 48]) } else { anywhere };
        file[at] ^= 1 << random.below(8);
    }
    run.sheet_out(CUT_SORT, &Asked::new(&file), scored.compressor);
}
