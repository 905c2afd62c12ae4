//! Corrections at the ceiling of the file, which is allowed itself; 13 where the ceiling is passed
//! too; pages of very many tiles, of very large ones and of very many free records.

use gvrs_tests::build::bytes_of;
use gvrs_tests::page::{Body, Element, Metadata, Page, Record, Tile, TileDirectory, SHORT};
use gvrs_tests::prng::Prng;
use gvrs_tests::second::check::Answer;
use gvrs_tests::second::correct::Call;

use super::ask::with_room;
use crate::run::Run;

const SORT: &str = "pages at the ceiling";

pub const CEILING: usize = 16_777_216;
/// A tile directory of four tiles, a tile record of four Integers, a list of one free record.
const DIRECTORY: usize = 56;
pub const RECORD: usize = 40;
const LIST: usize = 32;

const OPEN: Call = Call::Open { time: 5 };
const CLOSE: Call = Call::Close { time: 7 };

pub fn section(run: &mut Run, random: &mut Prng) {
    opening(run);
    storing(run);
    storing_over(run);
    closing(run);
    above(run);
    many_tiles(run, random);
    large_tiles(run, random);
    many_free(run);
}

/// Two by two tiles of four Integers. A metadata record brings the file to its length.
pub fn filled(mut page: Page, length: usize, checksums: bool) -> Vec<u8> {
    page.checksums = checksums;
    page.records.push(Record::new(Body::Metadata(Metadata::new(b"fill", 1))));
    let last = page.records.len() - 1;
    page.records.push(Record::new(Body::MetadataDirectory(vec![last])));
    let short = bytes_of(&page).len();
    if let Body::Metadata(metadata) = &mut page.records[last].body {
        metadata.content = vec![0x5a; length - short];
    }
    let file = bytes_of(&page);
    assert_eq!(file.len(), length);
    file
}

fn accepted() -> Page {
    Page::of_sides([4, 4], [2, 2])
}

fn empty_directory() -> Page {
    let mut page = accepted();
    page.records[0].body = Body::TileDirectory(TileDirectory::compact(0, 0, 0, 0));
    page
}

pub fn open() -> Page {
    let mut page = accepted();
    page.time_opened = 3;
    page
}

fn with_free(mut page: Page, length: usize) -> Page {
    page.insert(0, Body::Free(length));
    page
}

/// Tile 1, with so many bytes of 16.
fn with_tile(mut page: Page, length: usize) -> Page {
    page.insert(0, Body::Tile(Tile { index: 1, contents: vec![vec![9; length]] }));
    page
}

fn store() -> Call {
    Call::Store { tile: 1, cells: vec![6; 16] }
}

fn is(run: &mut Run, thing: &str, page: &[u8], room: usize, call: &Call, answer: Answer) {
    run.corrections.want(thing);
    let buffer = with_room(page, room);
    if run.correct_is(SORT, thing, (&buffer, page.len()), call, answer) {
        run.corrections.reached(thing);
    }
}

/// What a call needs at the end: up to the ceiling it is done; above, 4 with room for it and 13
/// without, one byte short and with none. Input that is wrong comes first.
fn at_the_end(
    run: &mut Run,
    name: &str,
    page: fn() -> Page,
    needed: usize,
    call: &Call,
    wrong: &[(Call, u32)],
) {
    let done = (0, CEILING as u64);
    let file = filled(page(), CEILING - needed, false);
    is(run, &format!("{name} up to the ceiling"), &file, needed, call, done);
    is(
        run,
        &format!("{name} up to the ceiling, a byte short: 13"),
        &file,
        needed - 1,
        call,
        (13, 0),
    );
    let file = filled(page(), CEILING - needed + 8, false);
    is(run, &format!("{name} past the ceiling: 4"), &file, needed, call, (4, 0));
    is(run, &format!("{name} past the ceiling, more room: 4"), &file, needed + 9, call, (4, 0));
    let both = format!("{name} past the ceiling and a byte of room short: 13");
    is(run, &both, &file, needed - 1, call, (13, 0));
    let none = format!("{name} past the ceiling and no room: 13");
    is(run, &none, &file, 0, call, (13, 0));
    for (call, number) in wrong {
        for room in [needed, 0] {
            let thing = format!("{name} past the ceiling and input wrong: {number}");
            is(run, &thing, &file, room, call, (*number, 0));
        }
    }
}

fn opening(run: &mut Run) {
    let zero = [(Call::Open { time: 0 }, 12)];
    at_the_end(run, "opening, the directory replaced", empty_directory, DIRECTORY, &OPEN, &zero);
    let file = filled(accepted(), CEILING, true);
    let done = (0, CEILING as u64);
    is(run, "opening at the ceiling, nothing at the end", &file, 0, &OPEN, done);
}

fn storing(run: &mut Run) {
    let past = Call::Store { tile: 4, cells: vec![6; 16] };
    let short = Call::Store { tile: 1, cells: vec![6; 15] };
    let wrong = [(past, 10), (short, 12)];
    at_the_end(run, "storing anew", open, RECORD, &store(), &wrong);
    let done = (0, CEILING as u64);
    let file = filled(with_free(open(), RECORD), CEILING, true);
    is(run, "storing at the ceiling, into a free record", &file, 0, &store(), done);
    let file = filled(with_free(open(), RECORD + 8), CEILING, false);
    is(run, "storing at the ceiling, one 8 longer: 4", &file, RECORD, &store(), (4, 0));
    is(run, "storing at the ceiling, one 8 longer, no room: 13", &file, 0, &store(), (13, 0));
}

fn storing_over(run: &mut Run) {
    let done = (0, CEILING as u64);
    let file = filled(with_tile(open(), 16), CEILING, true);
    is(run, "storing over at the ceiling, uncompressed", &file, 0, &store(), done);
    is(run, "removing at the ceiling", &file, 0, &Call::Remove { tile: 1 }, done);
    is(run, "removing at the ceiling, absent", &file, 0, &Call::Remove { tile: 0 }, done);
    let file = filled(with_tile(open(), 1), CEILING, false);
    is(run, "storing over at the ceiling, compressed: 4", &file, RECORD, &store(), (4, 0));
    let both = "storing over at the ceiling, compressed, a byte short: 13";
    is(run, both, &file, RECORD - 1, &store(), (13, 0));
    let file = filled(with_free(with_tile(open(), 1), 32), CEILING, false);
    let joined = "storing over at the ceiling, compressed, into what is joined";
    is(run, joined, &file, 0, &store(), done);
}

fn closing(run: &mut Run) {
    let zero = [(Call::Close { time: 0 }, 12)];
    at_the_end(run, "closing, a free record", || with_free(open(), 16), LIST, &CLOSE, &zero);
    let file = filled(open(), CEILING, true);
    let done = (0, CEILING as u64);
    is(run, "closing at the ceiling, nothing free", &file, 0, &CLOSE, done);
}

/// A page above the ceiling: the check's 4, and no open page.
fn above(run: &mut Run) {
    let file = filled(accepted(), CEILING + 8, false);
    let zero = Call::Open { time: 0 };
    is(run, "opening a file above the ceiling: 4, the time zero too", &file, 99, &zero, (4, 0));
    let file = filled(open(), CEILING + 8, false);
    for call in [store(), Call::Remove { tile: 1 }, CLOSE] {
        is(run, "an open page above the ceiling: 15", &file, 99, &call, (15, 0));
    }
}

/// 65,536 tiles, of which the last is stored, in either form of directory and in one that is
/// replaced.
fn many_tiles(run: &mut Run, random: &mut Prng) {
    const THING: &str = "65,536 tiles: opened, the last stored, removed, closed";
    run.corrections.want(THING);
    for standard in [0, 1] {
        for side in [256, 200] {
            let mut page = Page::of_sides([256, 256], [1, 1]);
            page.elements = vec![Element::new(SHORT, b"z")];
            let directory = TileDirectory { standard, ..TileDirectory::compact(0, 0, side, 256) };
            page.records[0].body = Body::TileDirectory(directory);
            page.insert(0, Body::Tile(Tile { index: 51_199, contents: vec![vec![1, 2]] }));
            let calls = [
                OPEN,
                Call::Store { tile: 65_535, cells: random.bytes(2) },
                Call::Store { tile: 0, cells: random.bytes(2) },
                Call::Remove { tile: 51_199 },
                Call::Store { tile: 65_534, cells: random.bytes(2) },
                CLOSE,
            ];
            let mut page = bytes_of(&page);
            let past = Call::Remove { tile: 65_536 };
            let mut good = true;
            for call in &calls {
                match run.corrected(SORT, &page, 300_000, call) {
                    Some(new) => page = new,
                    None => good = false,
                }
                if *call == OPEN {
                    good &= run.correct_is(SORT, THING, (&page, page.len()), &past, (10, 0));
                }
            }
            run.expect("corrected pages", THING, &page, (0, 0));
            run.corrections.reached_if(&[(THING, good)]);
        }
    }
}

/// Tiles of 1,048,576 bytes.
fn large_tiles(run: &mut Run, random: &mut Prng) {
    const THING: &str = "tiles of 1,048,576 bytes: stored anew, over, removed and stored again";
    run.corrections.want(THING);
    let page = Page::of_sides([4096, 192], [4096, 64]);
    let cells = |random: &mut Prng| random.bytes(1_048_576);
    let calls = [
        OPEN,
        Call::Store { tile: 2, cells: cells(random) },
        Call::Store { tile: 0, cells: cells(random) },
        Call::Store { tile: 2, cells: cells(random) },
        Call::Remove { tile: 2 },
        Call::Store { tile: 1, cells: cells(random) },
        CLOSE,
    ];
    let mut page = bytes_of(&page);
    let mut good = true;
    for call in &calls {
        match run.corrected(SORT, &page, 1_048_600, call) {
            Some(new) => page = new,
            None => good = false,
        }
    }
    run.expect("corrected pages", THING, &page, (0, 0));
    run.corrections.reached_if(&[(THING, good)]);
}

/// As many free records of 16 bytes as there is room for, all in a row: opening makes one of them.
fn many_free(run: &mut Run) {
    const THING: &str = "very many free records in a row become one";
    run.corrections.want(THING);
    let mut page = Page::plain();
    let first = page.records.len();
    page.records.extend((0..200_000).map(|_| Record::new(Body::Free(16))));
    let listed = (first..page.records.len()).collect();
    page.records.push(Record::new(Body::FileSpaceDirectory(listed)));
    let file = bytes_of(&page);
    let Some(opened) = run.corrected(SORT, &file, 0, &OPEN) else {
        return;
    };
    let Some(closed) = run.corrected(SORT, &opened, LIST, &CLOSE) else {
        return;
    };
    run.expect("corrected pages", THING, &closed, (0, 0));
    run.corrections.reached_if(&[(THING, closed.len() == file.len() + LIST)]);
}
