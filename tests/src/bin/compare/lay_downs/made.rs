//! Pages at random and pages of every sort, laid down and read back.

use gvrs_tests::build::build;
use gvrs_tests::page::{Element, Filler, Page, FLOAT, INTEGER, INTEGER_CODED, SHORT};
use gvrs_tests::prng::Prng;
use gvrs_tests::second::crc32c::crc32c;
use gvrs_tests::second::fields::integer_at;

use super::draft::{directory_length, record_length, Draft};
use super::read_back::{self, done};
use crate::run::Run;

const AT_RANDOM: &str = "pages at random";
const EVERY_SUBSET: &str = "every set of six tiles";
const EVERY_COUNT: &str = "every number of elements of every type";

const TYPES: [u8; 4] = [INTEGER, INTEGER_CODED, FLOAT, SHORT];

const LISTED: [&str; 3] = ["no tile listed", "some tiles listed", "all of several tiles listed"];
const CHECKSUMS: [&str; 2] = ["checksums on", "checksums off"];
const LARGE_TILE: &str = "a tile larger than the grid, listed";
const OVER_THE_EDGE: &str = "a tile that reaches over the grid's edge, listed";
const CONTENT_PADDED: &str = "an odd number of Shorts in a tile, listed";
const RECORD_PADDING: [&str; 2] = ["a tile record without padding", "a tile record with padding"];
const DIRECTORY_PADDING: [&str; 2] = ["a directory without padding", "a directory with padding"];
const JUNK: &str = "a front with junk in reserved bytes and padding";
const OTHER_TIME: &str = "a front with another time modified than given";
const OPENED: &str = "a front whose time opened is not zero";
const REFERENCES: &str = "a front whose file-space or metadata reference is not zero";
const OTHER_DIRECTORY: &str = "a front with another reference to the tile directory";
const CHECKSUM_WRONG: [&str; 2] = [
    "a front with another checksum, checksums on",
    "a front with another checksum than zero, checksums off",
];
const ROOM: [&str; 2] = ["a buffer as long as the file", "a buffer longer than the file"];

pub fn section(run: &mut Run, random: &mut Prng) {
    want(run);
    read_back::want(run);
    at_random(run, random);
    every_subset(run, random);
    every_count(run, random);
}

fn want(run: &mut Run) {
    let pairs = [CHECKSUMS, RECORD_PADDING, DIRECTORY_PADDING, CHECKSUM_WRONG, ROOM];
    for thing in LISTED.iter().chain(pairs.iter().flatten()) {
        run.lay_downs.want(thing);
    }
    for thing in [LARGE_TILE, OVER_THE_EDGE, CONTENT_PADDED, JUNK] {
        run.lay_downs.want(thing);
    }
    for thing in [OTHER_TIME, OPENED, REFERENCES, OTHER_DIRECTORY] {
        run.lay_downs.want(thing);
    }
    for number in 1..=16 {
        run.lay_downs.want(&elements(number));
    }
    for number in 0..8 {
        run.lay_downs.want(&header_padding(number));
    }
}

fn elements(number: usize) -> String {
    format!("elements of a page: {number}")
}

fn header_padding(number: usize) -> String {
    format!("padding bytes of a front: {number}")
}

fn at_random(run: &mut Run, random: &mut Prng) {
    for _ in 0..run.times(1500) {
        let draft = Draft::at_random(random);
        laid_down(run, AT_RANDOM, &draft, random);
    }
}

/// Two by three tiles, each of the 64 sets of them, with and without checksums.
fn every_subset(run: &mut Run, random: &mut Prng) {
    let step = if run.small { 13 } else { 1 };
    for set in (0..64).step_by(step) {
        for checksums in [true, false] {
            let mut page = Page::of_sides([3, 8], [2, 3]);
            page.elements = vec![Element::new(SHORT, b"glyph"), Element::new(FLOAT, b"score")];
            page.checksums = checksums;
            let indexes = (0..6).filter(|index| set >> index & 1 == 1).collect();
            let draft = Draft::new(page, indexes, random);
            laid_down(run, EVERY_SUBSET, &draft, random);
        }
    }
}

/// One to sixteen elements of one type, then of all types in turn, with tiles of one to four cells.
fn every_count(run: &mut Run, random: &mut Prng) {
    for count in 1..=16 {
        for turn in 0..5 {
            let mut page = Page::of_sides([2, 3], [1, random.between(1, 4) as u32]);
            let type_code = |number: usize| TYPES[if turn == 4 { number % 4 } else { turn }];
            let name = |number: usize| vec![b'a' + number as u8; 1 + number % 4];
            let element = |number| Element::new(type_code(number), &name(number));
            page.elements = (0..count).map(element).collect();
            page.checksums = turn != 2;
            let draft = Draft::of_all_tiles(page, random);
            laid_down(run, EVERY_COUNT, &draft, random);
        }
    }
}

/// Half of them in a buffer that is longer than the file.
fn laid_down(run: &mut Run, sort: &str, draft: &Draft, random: &mut Prng) {
    let behind = if random.one_in(2) { 0 } else { random.between(1, 40) };
    if done(run, sort, draft, behind, random) {
        run.lay_downs.reached(ROOM[usize::from(behind > 0)]);
        note_page(run, draft);
        note_tiles(run, draft);
        note_front(run, draft);
    }
}

/// Counts what the page is an instance of.
fn note_page(run: &mut Run, draft: &Draft) {
    let page = &draft.page;
    let (listed, tiles) = (draft.given.indexes.len(), page.tile_count());
    if listed == 0 || listed < tiles {
        run.lay_downs.reached(LISTED[usize::from(listed > 0)]);
    } else if tiles > 1 {
        run.lay_downs.reached(LISTED[2]);
    }
    let directory_padding = directory_length(page) - (36 + 4 * tiles);
    run.lay_downs.reached(DIRECTORY_PADDING[usize::from(directory_padding > 0)]);
    run.lay_downs.reached(CHECKSUMS[usize::from(!page.checksums)]);
    run.lay_downs.reached(&elements(page.elements.len()));
}

fn note_tiles(run: &mut Run, draft: &Draft) {
    let page = &draft.page;
    if draft.given.indexes.is_empty() {
        return;
    }
    let sizes = (0..page.elements.len()).map(|element| page.uncompressed_size(element));
    let content_padded = sizes.clone().any(|size| size % 4 != 0);
    let fields: usize = sizes.map(|size| 4 + size.next_multiple_of(4)).sum();
    let record_padding = record_length(page) - (12 + fields + 4);
    run.lay_downs.reached(RECORD_PADDING[usize::from(record_padding > 0)]);
    let large = page.tile_rows > page.grid_rows || page.tile_columns > page.grid_columns;
    let last = draft.given.indexes.last().map(|index| *index as usize + 1);
    let cut_off = !page.grid_rows.is_multiple_of(page.tile_rows);
    let over = cut_off && last == Some(page.tile_count());
    let true_of_it = [(LARGE_TILE, large), (OVER_THE_EDGE, over), (CONTENT_PADDED, content_padded)];
    for (thing, _) in true_of_it.iter().filter(|(_, holds)| *holds) {
        run.lay_downs.reached(thing);
    }
}

fn note_front(run: &mut Run, draft: &Draft) {
    let front = &draft.given.front;
    let built = build(&draft.page);
    let value = |name| {
        let field = built.only(name);
        u64::from_le_bytes(front[field.at..field.at + 8].try_into().expect("eight bytes"))
    };
    let padding =
        built.fields.iter().find(|field| field.name == "padding" && field.owner.is_none());
    run.lay_downs.reached(&header_padding(padding.map_or(0, |field| field.width)));
    let last = front.len() - 4;
    let on = draft.page.checksums;
    let good = if on { crc32c(&front[16..last]) } else { 0 };
    if integer_at(front, last) != Some(good) {
        run.lay_downs.reached(CHECKSUM_WRONG[usize::from(!on)]);
    }
    let directory = front.len() + draft.given.indexes.len() * record_length(&draft.page) + 8;
    let true_of_it = [
        (JUNK, draft.page.filler != Filler::Zero),
        (OTHER_TIME, value("time modified") != draft.given.time),
        (OPENED, value("time opened") != 0),
        (REFERENCES, value("file-space reference") != 0 || value("metadata reference") != 0),
        (OTHER_DIRECTORY, value("tile directory reference") != directory as u64),
    ];
    for (thing, _) in true_of_it.iter().filter(|(_, holds)| *holds) {
        run.lay_downs.reached(thing);
    }
}
