//! Open pages damaged in one rule each are 15; those with junk in what no rule looks at are not.

use gvrs_tests::build::{build, make_checksums_good, Built, Role};
use gvrs_tests::page::{Body, Page, TileDirectory};
use gvrs_tests::prng::Prng;
use gvrs_tests::random_page::put_anywhere;
use gvrs_tests::second::chain::{FREE, TILE, TILE_DIRECTORY};
use gvrs_tests::second::correct::Call;
use gvrs_tests::worn_page::{open_worn_page, time, worn_page};

use super::ask::with_room;
use crate::aims;
use crate::damage::{damaged, Aim};
use crate::run::Run;

const SORT: &str = "pages that are not open";
const ALLOWED: &str = "open pages with junk";

/// Pages tried for one rule, as not every page can break it.
const MOST_TRIES: usize = 200;

/// A rule of an open page that is no rule of the check, and a page that breaks it alone.
type Rule = (&'static str, fn(&mut Page, &mut Prng) -> Option<()>);

const RULES: [Rule; 12] = [
    ("15: the opened time is zero, and nothing is free", closed_without_free),
    ("15: the opened time is zero, and a record is free", closed_with_free),
    ("15: an accepted file", accepted),
    ("15: a file-space directory and its reference", listed),
    ("15: a file-space directory that lists nothing", lists_nothing),
    ("15: the tile directory lists a row less", row_less),
    ("15: the tile directory lists a column less", column_less),
    ("15: the tile directory begins a row later", row_later),
    ("15: the tile directory begins a column later", column_later),
    ("15: the tile directory lists no tile", no_tile),
    ("15: two free records adjoin", two_free),
    ("15: three free records adjoin", three_free),
];

const REFERENCE: &str = "15: the file-space reference is not zero";
const NO_REFERENCE: &str = "15: a record of type 3, and the reference is zero";
const WRONG_TOO: &str = "15 before 10 and 12";
const JUNK: [&str; 5] = [
    "open: junk in one field that no rule looks at",
    "open: junk in every field that no rule looks at",
    "open: a lone free record with junk",
    "open: a full standard directory",
    "open: checksums off",
];

pub fn section(run: &mut Run, random: &mut Prng) {
    for (thing, _) in RULES {
        run.corrections.want(thing);
    }
    for thing in [REFERENCE, NO_REFERENCE, WRONG_TOO].into_iter().chain(JUNK) {
        run.corrections.want(thing);
    }
    for (subject, aims) in aims::by_subject() {
        let thing = format!("15: damaged in {subject}");
        run.corrections.want(&thing);
        for aim in aims.iter().filter(|aim| aim.stage != 5) {
            damaged_so(run, &thing, aim, random);
        }
    }
    for (thing, change) in RULES {
        let mut left = run.times(40);
        for _ in 0..MOST_TRIES {
            let mut page = open_worn_page(random);
            if left > 0 && change(&mut page, random).is_some() {
                not_open(run, thing, &page, &build(&page).bytes, random);
                left -= 1;
            }
        }
    }
    for _ in 0..run.times(60) {
        references(run, random);
    }
    for _ in 0..run.times(150) {
        junk(run, random);
    }
}

/// A damage of stages 1 to 4 or 6 to 9, if it can be done to an open page.
fn damaged_so(run: &mut Run, thing: &str, aim: &Aim, random: &mut Prng) {
    if run.small && aim.has_long_files() {
        return;
    }
    let mut left = if aim.has_long_files() { 1 } else { run.times(10) };
    for _ in 0..MOST_TRIES {
        if left == 0 {
            break;
        }
        let page = open_worn_page(random);
        if let Some((file, _)) = damaged(&page, &[aim.damage], random) {
            not_open(run, thing, &page, &file, random);
            left -= 1;
        }
    }
}

/// Each call is 15 on these bytes, also where something else is wrong with it.
fn not_open(run: &mut Run, thing: &str, page: &Page, file: &[u8], random: &mut Prng) {
    let bytes: usize = (0..page.elements.len()).map(|e| page.uncompressed_size(e)).sum();
    let tile = random.below(page.tile_count()) as u64;
    let buffer = with_room(file, random.below(2 * bytes + 200));
    let good = [
        Call::Store { tile, cells: random.bytes(bytes) },
        Call::Remove { tile },
        Call::Close { time: time(random) },
    ];
    let wrong = [
        Call::Store { tile, cells: random.bytes(bytes + 1) },
        Call::Remove { tile: u64::MAX },
        Call::Close { time: 0 },
    ];
    let mut all = true;
    for call in good {
        all &= run.correct_is(SORT, thing, (&buffer, file.len()), &call, (15, 0));
    }
    let other = random.pick(&wrong);
    if run.correct_is(SORT, thing, (&buffer, file.len()), &other, (15, 0)) {
        run.corrections.reached(WRONG_TOO);
    }
    if all {
        run.corrections.reached(thing);
    }
}

// Rules that are the open page's own.

fn without_free(page: &mut Page) {
    while let Some(number) = page.of_type(FREE).first() {
        page.remove(*number);
    }
}

fn closed_without_free(page: &mut Page, _: &mut Prng) -> Option<()> {
    without_free(page);
    page.time_opened = 0;
    Some(())
}

fn closed_with_free(page: &mut Page, _: &mut Prng) -> Option<()> {
    page.time_opened = 0;
    page.of_type(FREE).first().map(|_| ())
}

fn accepted(page: &mut Page, random: &mut Prng) -> Option<()> {
    *page = worn_page(random);
    Some(())
}

/// As the check wants it but for the opened time.
fn listed(page: &mut Page, random: &mut Prng) -> Option<()> {
    page.of_type(FREE).first()?;
    put_list(page, random);
    Some(())
}

/// A file-space directory that lists what is free.
fn put_list(page: &mut Page, random: &mut Prng) {
    put_anywhere(page, Body::FileSpaceDirectory(Vec::new()), random);
    let free = page.of_type(FREE);
    for record in &mut page.records {
        if let Body::FileSpaceDirectory(listed) = &mut record.body {
            listed.clone_from(&free);
        }
    }
}

fn lists_nothing(page: &mut Page, random: &mut Prng) -> Option<()> {
    put_anywhere(page, Body::FileSpaceDirectory(Vec::new()), random);
    Some(())
}

/// Makes the tile directory another one, and leaves out the tiles that it does not list.
fn relist(page: &mut Page, change: impl Fn(&mut TileDirectory)) -> Option<()> {
    let number = page.of_type(TILE_DIRECTORY)[0];
    let Body::TileDirectory(mut directory) = page.records[number].body.clone() else {
        return None;
    };
    change(&mut directory);
    let across = page.tiles_across() as u32;
    let rows = directory.row0..directory.row0 + directory.rows;
    let columns = directory.column0..directory.column0 + directory.columns;
    page.records[number].body = Body::TileDirectory(directory);
    let unlisted = |record: usize, page: &Page| match &page.records[record].body {
        Body::Tile(tile) => {
            !(rows.contains(&(tile.index / across)) && columns.contains(&(tile.index % across)))
        }
        _ => false,
    };
    while let Some(record) = page.of_type(TILE).into_iter().find(|record| unlisted(*record, page)) {
        page.remove(record);
    }
    // Free records may adjoin now that a tile between them is gone.
    without_free(page);
    Some(())
}

fn row_less(page: &mut Page, _: &mut Prng) -> Option<()> {
    relist(page, |directory| directory.rows -= 1)
}

fn column_less(page: &mut Page, _: &mut Prng) -> Option<()> {
    relist(page, |directory| directory.columns -= 1)
}

fn row_later(page: &mut Page, _: &mut Prng) -> Option<()> {
    relist(page, |directory| {
        directory.rows -= 1;
        directory.row0 = 1;
    })
}

fn column_later(page: &mut Page, _: &mut Prng) -> Option<()> {
    relist(page, |directory| {
        directory.columns -= 1;
        directory.column0 = 1;
    })
}

fn no_tile(page: &mut Page, _: &mut Prng) -> Option<()> {
    relist(page, |directory| (directory.rows, directory.columns) = (0, 0))
}

fn two_free(page: &mut Page, random: &mut Prng) -> Option<()> {
    let number = random.pick_any(&page.of_type(FREE))?;
    page.insert(number, Body::Free(8 * random.between(2, 9)));
    Some(())
}

fn three_free(page: &mut Page, random: &mut Prng) -> Option<()> {
    two_free(page, random)?;
    two_free(page, random)
}

/// A reference without a directory, and a directory without a reference.
fn references(run: &mut Run, random: &mut Prng) {
    let mut page = open_worn_page(random);
    let mut built = build(&page);
    let field = built.only("file-space reference");
    let content = built.starts[random.below(built.starts.len())] as u64 + 8;
    let end = built.bytes.len() as u64;
    built.set(&field, random.pick(&[1, 8, content, end, end + 8, 1 << 63, u64::MAX]));
    make_checksums_good(&mut built.bytes);
    not_open(run, REFERENCE, &page, &built.bytes, random);
    if random.one_in(2) {
        without_free(&mut page);
    }
    put_list(&mut page, random);
    let mut built = build(&page);
    built.set(&field, 0);
    make_checksums_good(&mut built.bytes);
    not_open(run, NO_REFERENCE, &page, &built.bytes, random);
}

// What no rule looks at.

fn junk(run: &mut Run, random: &mut Prng) {
    let page = open_worn_page(random);
    let good = build(&page);
    let fields = good.of_role(Role::Unjudged);
    let mut built = good.clone();
    let field = random.pick(&fields);
    built.bytes[field.at..field.at + field.width].fill(random.between(1, 255) as u8);
    let one = still_open(run, &page, built, random);
    let mut built = good.clone();
    for field in &fields {
        let junk = random.bytes(field.width);
        built.bytes[field.at..field.at + field.width].copy_from_slice(&junk);
    }
    let all = still_open(run, &page, built, random);
    let standard = good.value(&good.only("standard references")) == 1;
    run.corrections.reached_if(&[
        (JUNK[0], one),
        (JUNK[1], all),
        (JUNK[2], all && !page.of_type(FREE).is_empty()),
        (JUNK[3], all && standard),
        (JUNK[4], all && !page.checksums),
    ]);
}

/// Each call is done.
fn still_open(run: &mut Run, page: &Page, built: Built, random: &mut Prng) -> bool {
    let mut file = built.bytes;
    make_checksums_good(&mut file);
    let bytes: usize = (0..page.elements.len()).map(|e| page.uncompressed_size(e)).sum();
    let tile = random.below(page.tile_count()) as u64;
    let room = file.len() + 2 * bytes + 200;
    let calls = [
        Call::Remove { tile },
        Call::Store { tile, cells: random.bytes(bytes) },
        Call::Close { time: time(random) },
    ];
    calls.iter().all(|call| run.corrected(ALLOWED, &file, room, call).is_some())
}
