//! Where a new record goes: every arrangement of a few free records, of lengths next to that of the
//! record, around a tile that is absent, uncompressed or compressed.

use gvrs_tests::build::build;
use gvrs_tests::page::{Body, Element, Filler, Metadata, Page, Record, Tile, TileDirectory, SHORT};
use gvrs_tests::prng::Prng;
use gvrs_tests::second::correct::Call;
use gvrs_tests::second::fields::integer_at;

use super::ask::with_room;
use crate::run::Run;

const SORT: &str = "every arrangement of a few free records";

/// Of a tile of 3 by 3 cells of one Short: 8, 4, 4, 18, 2 and 4 bytes.
const RECORD: usize = 40;
/// Lengths of free records; 0 for none.
const LENGTHS: [usize; 7] = [0, 16, RECORD - 8, RECORD, RECORD + 8, RECORD + 16, RECORD + 24];

/// What the tile has before.
#[derive(Clone, Copy, PartialEq)]
enum Had {
    Nothing,
    Uncompressed,
    /// So many bytes of content.
    Compressed(usize),
}

const HAD: [Had; 4] = [Had::Nothing, Had::Uncompressed, Had::Compressed(1), Had::Compressed(17)];

const TOGETHER: [&str; 4] = [
    "arranged: an absent tile",
    "arranged: an uncompressed tile",
    "arranged: a compressed tile, the record shorter",
    "arranged: a compressed tile, the record as long",
];

pub fn section(run: &mut Run, random: &mut Prng) {
    for thing in TOGETHER {
        run.corrections.want(thing);
    }
    let step = if run.small { 5 } else { 1 };
    let all = LENGTHS.len().pow(3);
    for number in (0..all).step_by(step) {
        let first = LENGTHS[number / 49];
        let before = LENGTHS[number / 7 % 7];
        let behind = LENGTHS[number % 7];
        for (had, thing) in HAD.into_iter().zip(TOGETHER) {
            if arranged(run, [first, before, behind], had, random) {
                run.corrections.reached(thing);
            }
        }
    }
}

/// A free record, a metadata record, a free record, the tile or another metadata record, a free
/// record, the directories.
fn page(lengths: [usize; 3], had: Had, random: &mut Prng) -> Page {
    let mut page = Page::of_sides([3, 6], [3, 3]);
    page.elements = vec![Element::new(SHORT, b"z")];
    page.filler = if random.one_in(2) { Filler::Zero } else { Filler::Junk(random.long()) };
    page.checksums = !random.one_in(4);
    page.time_opened = 1;
    page.records.clear();
    let [first, before, behind] = lengths;
    put_free(&mut page, first);
    put(&mut page, Body::Metadata(Metadata::new(b"a", 1)));
    put_free(&mut page, before);
    let tile = |length| Body::Tile(Tile { index: 1, contents: vec![vec![5; length]] });
    put(
        &mut page,
        match had {
            Had::Nothing => Body::Metadata(Metadata::new(b"a", 2)),
            Had::Uncompressed => tile(18),
            Had::Compressed(length) => tile(length),
        },
    );
    put_free(&mut page, behind);
    let standard = u8::from(random.one_in(2));
    let directory = TileDirectory { standard, ..TileDirectory::compact(0, 0, 1, 2) };
    put(&mut page, Body::TileDirectory(directory));
    let metadata = page.of_type(gvrs_tests::second::chain::METADATA);
    put(&mut page, Body::MetadataDirectory(metadata));
    page
}

fn put(page: &mut Page, body: Body) {
    page.records.push(Record::new(body));
}

fn put_free(page: &mut Page, length: usize) {
    if length > 0 {
        put(page, Body::Free(length));
    }
}

/// The place by a count of its own, from the lengths alone.
fn arranged(run: &mut Run, lengths: [usize; 3], had: Had, random: &mut Prng) -> bool {
    let page = page(lengths, had, random);
    let built = build(&page);
    let tile = page.of_type(gvrs_tests::second::chain::TILE).first().copied();
    let free = |number: usize| matches!(page.records[number].body, Body::Free(_));
    // The extents that are free once the tile's record is.
    let mut extents: Vec<(usize, usize)> = Vec::new();
    for number in 0..page.records.len() {
        let freed = Some(number) == tile && had != Had::Uncompressed;
        if free(number) || freed {
            let (start, length) = (built.starts[number], built.length(number));
            match extents.last_mut() {
                Some((first, sum)) if *first + *sum == start => *sum += length,
                _ => extents.push((start, length)),
            }
        }
    }
    let takes = |length: usize| length == RECORD || length >= RECORD + 16;
    let taken = extents.into_iter().find(|(_, length)| takes(*length));
    let end = built.bytes.len();
    let start = match (had, tile, taken) {
        (Had::Uncompressed, Some(number), _) => built.starts[number],
        (_, _, Some((start, _))) => start,
        _ => end,
    };
    let grown = if start == end { RECORD } else { 0 };
    let cells: Vec<u8> = random.bytes(18);
    let call = Call::Store { tile: 1, cells: cells.clone() };
    let buffer = with_room(&built.bytes, grown);
    let Some(Ok(stored)) = run.correct(SORT, &buffer, end as u64, &call) else {
        run.fault(&format!("{SORT}: {lengths:?} is not stored"), &built.bytes);
        return false;
    };
    let good = stored.len() == end + grown
        && integer_at(&stored, start) == Some(RECORD as u32)
        && stored[start + 4] == 2
        && integer_at(&stored, start + 8) == Some(1)
        && stored[start + 16..start + 34] == cells;
    if !good {
        run.fault(&format!("{SORT}: {lengths:?}: not stored at {start}"), &stored);
    }
    if grown > 0 {
        let short = (&buffer[..end + RECORD - 1], end);
        return good && run.correct_is(SORT, "a byte of room short", short, &call, (13, 0));
    }
    good
}
