//! What a call that was done is an instance of, told from the page before and the page behind it.

use gvrs_tests::second::chain::{
    FILE_SPACE_DIRECTORY, FREE, METADATA, METADATA_DIRECTORY, TILE, TILE_DIRECTORY,
};
use gvrs_tests::second::check::stages_1_to_4;
use gvrs_tests::second::correct::Call;
use gvrs_tests::second::geometry::{tiles_across, tiles_down};

use crate::run::Run;

const CHECKSUMS: [&str; 2] = ["corrected with checksums on", "corrected with checksums off"];
const WITH_METADATA: &str = "corrected beside metadata records and their directory";

const FULL_STAYS: [&str; 2] =
    ["opening: a full compact directory stays", "opening: a full standard directory stays"];
const REPLACED: [&str; 3] = [
    "opening: a partial compact directory is replaced",
    "opening: a partial standard directory is replaced",
    "opening: an empty directory is replaced",
];
const OLD_ALONE: &str = "opening: the old tile directory becomes a lone free record";
const OLD_JOINED: &str = "opening: the old tile directory is joined with a free record";
const LIST_ALONE: &str = "opening: the file-space directory becomes a lone free record";
const LIST_JOINED: [&str; 3] = [
    "opening: the file-space directory is joined with the free record before",
    "opening: the file-space directory is joined with the free record behind",
    "opening: the file-space directory is joined on both sides",
];
const NO_LIST: &str = "opening: no file-space directory";
const RUNS: [&str; 2] =
    ["opening: two free records adjoin", "opening: three free records or more adjoin"];
const JUNK_JOINED: &str = "opening: free records with junk are joined";
const JUNK_STAYS: &str = "opening: a lone free record keeps its junk";

const OVER: [&str; 2] = [
    "storing over an uncompressed tile",
    "storing over an uncompressed tile with junk in reserved bytes or paddings",
];
const OVER_PACKED: [&str; 4] = [
    "storing over a compressed tile, into its own place",
    "storing over a compressed tile, into an earlier free record",
    "storing over a compressed tile, into a later free record",
    "storing over a compressed tile, at the end",
];
const PARTLY_PACKED: &str = "storing over a tile of which some elements are compressed";
const JOINED_TO_FIT: &str =
    "storing over a compressed tile that fits only with its free neighbours";
const EXACTLY: &str = "storing anew, into a free record of its length";
const SIXTEEN_MORE: &str = "storing anew, into a free record 16 longer";
const MORE: &str = "storing anew, into a free record longer still";
const AT_THE_END: [&str; 3] = [
    "storing anew, at the end, no record being free",
    "storing anew, at the end, every free record being too short",
    "storing anew, at the end, a free record being 8 longer",
];
const NOT_THE_FIRST: &str = "storing anew, past a free record that does not take it";
const NOT_THE_LAST: &str = "storing anew, into the lowest of two that take it";
const INTO_JUNK: &str = "storing anew, into a free record with junk";
const REFERENCES: [&str; 2] = ["a compact reference set", "a standard reference set"];

const REMOVED: [&str; 4] = [
    "removing: a lone free record",
    "removing: joined with the free record before",
    "removing: joined with the free record behind",
    "removing: joined on both sides",
];
const REMOVED_PACKED: &str = "removing a compressed tile";
const REMOVED_LAST: &str = "removing the last record: a free record at the end";
const ABSENT: &str = "removing an absent tile";

const CLOSED: [&str; 3] = [
    "closing without a free record",
    "closing with one free record",
    "closing with several free records",
];

const SQUEEZED: [&str; 3] = [
    "squeezing tight: no free record is left",
    "squeezing that moves nothing",
    "squeezing to any starts",
];
const GAPS: [&str; 3] = [
    "squeezing: a gap behind the header",
    "squeezing: a gap between records",
    "squeezing: a gap of 16",
];
const DROPPED: &str = "squeezing: free space at the end is dropped";
const ZEROED: &str = "squeezing: a free record with junk that stays is zeroed";
const MOVED: [&str; 3] = [
    "squeezing: a compact tile directory moves",
    "squeezing: a standard tile directory moves",
    "squeezing: the metadata directory moves",
];
const OVERLAPS: &str = "squeezing: a record moves by less than its length";

pub fn want(run: &mut Run) {
    let lists: [&[&str]; 15] = [
        &CHECKSUMS,
        &FULL_STAYS,
        &REPLACED,
        &LIST_JOINED,
        &RUNS,
        &OVER,
        &OVER_PACKED,
        &AT_THE_END,
        &REFERENCES,
        &REMOVED,
        &CLOSED,
        &SQUEEZED,
        &GAPS,
        &MOVED,
        &[WITH_METADATA, OLD_ALONE, OLD_JOINED, LIST_ALONE, NO_LIST, JUNK_JOINED, JUNK_STAYS],
    ];
    let others = [PARTLY_PACKED, JOINED_TO_FIT, EXACTLY, SIXTEEN_MORE, MORE, NOT_THE_FIRST];
    let last =
        [NOT_THE_LAST, INTO_JUNK, REMOVED_PACKED, REMOVED_LAST, ABSENT, DROPPED, ZEROED, OVERLAPS];
    for thing in lists.into_iter().flatten().chain(&others).chain(&last) {
        run.corrections.want(thing);
    }
}

/// A page's records by their starts.
struct Chain<'a> {
    records: Vec<(usize, &'a [u8])>,
}

impl<'a> Chain<'a> {
    fn of(page: &'a [u8]) -> Chain<'a> {
        let mut start = stages_1_to_4(page).expect("a header").end;
        let mut records = Vec::new();
        while start < page.len() {
            let length = four(page, start);
            records.push((start, &page[start..start + length]));
            start += length;
        }
        Chain { records }
    }

    fn kind(&self, number: usize) -> Option<u8> {
        self.records.get(number).map(|(_, bytes)| bytes[4])
    }

    fn of_kind(&self, kind: u8) -> Vec<usize> {
        (0..self.records.len()).filter(|number| self.kind(*number) == Some(kind)).collect()
    }

    fn tile(&self, index: u64) -> Option<usize> {
        let carries = |number: &usize| four(self.records[*number].1, 8) as u64 == index;
        self.of_kind(TILE).into_iter().find(carries)
    }

    /// Whether the neighbours before and behind are free.
    fn free_sides(&self, number: usize) -> [bool; 2] {
        let before = number.checked_sub(1).and_then(|number| self.kind(number));
        [before == Some(FREE), self.kind(number + 1) == Some(FREE)]
    }

    fn length(&self, number: usize) -> usize {
        self.records[number].1.len()
    }

    /// Anything but zeros between its first five bytes and its checksum.
    fn has_junk(&self, number: usize) -> bool {
        let bytes = self.records[number].1;
        bytes[5..bytes.len() - 4].iter().any(|byte| *byte != 0)
    }
}

fn four(bytes: &[u8], at: usize) -> usize {
    u32::from_le_bytes(bytes[at..at + 4].try_into().expect("four bytes")) as usize
}

pub fn note(run: &mut Run, before: &[u8], behind: &[u8], call: &Call) {
    let (old, new) = (Chain::of(before), Chain::of(behind));
    let metadata = [METADATA, METADATA_DIRECTORY].map(|kind| !old.of_kind(kind).is_empty());
    run.corrections.reached(CHECKSUMS[usize::from(before[128] == 0)]);
    run.corrections.reached_if(&[(WITH_METADATA, metadata == [true, true])]);
    match call {
        Call::Open { .. } => opened(run, before, &old, &new),
        Call::Store { tile, .. } => {
            let header = stages_1_to_4(before).expect("a header");
            stored(run, &old, &new, *tile, header.elements.len());
        }
        Call::Remove { tile } => removed(run, &old, *tile),
        Call::Close { .. } => {
            let free = old.of_kind(FREE).len();
            run.corrections.reached(CLOSED[free.min(2)]);
        }
        Call::Squeeze { plan } => squeezed(run, &old, &new, plan),
    }
}

fn squeezed(run: &mut Run, old: &Chain, new: &Chain, plan: &[u64]) {
    let is_kept = |number: &usize| old.kind(*number) != Some(FREE);
    let kept: Vec<usize> = (0..old.records.len()).filter(is_kept).collect();
    let start = |number: usize| old.records[number].0;
    let moved = |number: usize, to: u64| start(number) as u64 != to;
    let pairs = || kept.iter().copied().zip(plan.iter().copied());
    let form = if !new.of_kind(FREE).is_empty() && !pairs().any(|(own, to)| moved(own, to)) {
        1
    } else {
        2 * usize::from(!new.of_kind(FREE).is_empty())
    };
    run.corrections.reached(SQUEEZED[form]);
    let moves = |kind: u8| pairs().any(|(own, to)| old.kind(own) == Some(kind) && moved(own, to));
    let standard = old.records[old.of_kind(TILE_DIRECTORY)[0]].1[9] == 1;
    let gaps = new.of_kind(FREE);
    let zeroed = |number: &usize| {
        let (at, _) = new.records[*number];
        let here = old.of_kind(FREE).into_iter().find(|free| old.records[*free].0 == at);
        here.is_some_and(|free| old.has_junk(free) && old.length(free) == new.length(*number))
    };
    let overlap = |(own, to): (usize, u64)| {
        let down = start(own) as u64 - to;
        down > 0 && down < old.length(own) as u64
    };
    run.corrections.reached_if(&[
        (GAPS[0], gaps.first() == Some(&0)),
        (GAPS[1], gaps.iter().any(|number| *number > 0)),
        (GAPS[2], gaps.iter().any(|number| new.length(*number) == 16)),
        (DROPPED, old.records.len().checked_sub(1).and_then(|last| old.kind(last)) == Some(FREE)),
        (ZEROED, gaps.iter().any(zeroed)),
        (MOVED[0], moves(TILE_DIRECTORY) && !standard),
        (MOVED[1], moves(TILE_DIRECTORY) && standard),
        (MOVED[2], moves(METADATA_DIRECTORY)),
        (OVERLAPS, pairs().any(overlap)),
    ]);
}

fn opened(run: &mut Run, before: &[u8], old: &Chain, new: &Chain) {
    let header = stages_1_to_4(before).expect("a header");
    let directory = old.of_kind(TILE_DIRECTORY)[0];
    let bytes = old.records[directory].1;
    let (standard, rows, columns) = (bytes[9] == 1, four(bytes, 24), four(bytes, 28));
    let whole = (tiles_down(&header) as usize, tiles_across(&header) as usize);
    if (rows, columns) == whole {
        run.corrections.reached(FULL_STAYS[usize::from(standard)]);
    } else {
        let form = if rows * columns == 0 { 2 } else { usize::from(standard) };
        run.corrections.reached(REPLACED[form]);
        let joined = old.free_sides(directory) != [false, false];
        run.corrections.reached(if joined { OLD_JOINED } else { OLD_ALONE });
    }
    match old.of_kind(FILE_SPACE_DIRECTORY).first().map(|number| old.free_sides(*number)) {
        None => run.corrections.reached(NO_LIST),
        Some([false, false]) => run.corrections.reached(LIST_ALONE),
        Some([true, false]) => run.corrections.reached(LIST_JOINED[0]),
        Some([false, true]) => run.corrections.reached(LIST_JOINED[1]),
        Some([true, true]) => run.corrections.reached(LIST_JOINED[2]),
    }
    let free = old.of_kind(FREE);
    let two = free.windows(2).any(|pair| pair[0] + 1 == pair[1]);
    let three = free.windows(3).any(|run| run[0] + 2 == run[2]);
    let junk = |number: usize| old.has_junk(number) && old.free_sides(number) != [false, false];
    let stays =
        |number: &usize| old.has_junk(*number) && new.records.contains(&old.records[*number]);
    run.corrections.reached_if(&[
        (RUNS[0], two && !three),
        (RUNS[1], three),
        (JUNK_JOINED, free.iter().any(|number| junk(*number))),
        (JUNK_STAYS, free.iter().any(stays)),
    ]);
}

fn stored(run: &mut Run, old: &Chain, new: &Chain, tile: u64, elements: usize) {
    let number = new.tile(tile).expect("a tile that was stored");
    let (start, record) = new.records[number];
    if let Some(own) = old.tile(tile) {
        return stored_over(run, old, own, (start, record), elements);
    }
    let taken = old.records.iter().position(|(at, _)| *at == start);
    let takes = |free: &usize| {
        let length = old.length(*free);
        length == record.len() || length >= record.len() + 16
    };
    let free = old.of_kind(FREE);
    let standard = old.records[old.of_kind(TILE_DIRECTORY)[0]].1[9];
    run.corrections.reached(REFERENCES[usize::from(standard)]);
    let Some(taken) = taken else {
        let eight = free.iter().any(|free| old.length(*free) == record.len() + 8);
        let form = if free.is_empty() { 0 } else { 1 + usize::from(eight) };
        return run.corrections.reached(AT_THE_END[form]);
    };
    let left = old.length(taken) - record.len();
    run.corrections.reached_if(&[
        (EXACTLY, left == 0),
        (SIXTEEN_MORE, left == 16),
        (MORE, left > 16),
        (NOT_THE_FIRST, free.first() != Some(&taken)),
        (NOT_THE_LAST, free.iter().any(|free| *free > taken && takes(free))),
        (INTO_JUNK, old.has_junk(taken)),
    ]);
}

/// Of the record that the tile had, and the start and bytes of the one that it has now.
fn stored_over(
    run: &mut Run,
    old: &Chain,
    own: usize,
    (start, record): (usize, &[u8]),
    elements: usize,
) {
    let (own_start, own_bytes) = old.records[own];
    let (mut at, mut whole, mut packed) = (12, 0, 0);
    let mut beside = own_bytes[5..8].to_vec();
    // The elements' lengths in the new record are their U.
    let mut own_at = 12;
    for _ in 0..elements {
        let (size, length) = (four(record, at), four(own_bytes, own_at));
        if length == size {
            whole += 1;
        } else {
            packed += 1;
        }
        at += 4 + size.next_multiple_of(4);
        let end = own_at + 4 + length;
        own_at += 4 + length.next_multiple_of(4);
        beside.extend(&own_bytes[end..own_at]);
    }
    if packed == 0 {
        beside.extend(&own_bytes[own_at..own_bytes.len() - 4]);
        let junk = beside.iter().any(|byte| *byte != 0);
        return run.corrections.reached(OVER[usize::from(junk)]);
    }
    let [before, behind] = old.free_sides(own);
    let first = if before { old.records[own - 1].0 } else { own_start };
    let last = if behind { own + 1 } else { own };
    let end = old.records[last].0 + old.length(last);
    let page_end = old.records.last().map_or(0, |(at, bytes)| at + bytes.len());
    let form = match start {
        _ if start < first => 1,
        _ if start < end => 0,
        _ if start < page_end => 2,
        _ => 3,
    };
    let alone = own_bytes.len() == record.len() || own_bytes.len() >= record.len() + 16;
    run.corrections.reached(OVER_PACKED[form]);
    run.corrections.reached_if(&[(PARTLY_PACKED, whole > 0), (JOINED_TO_FIT, form == 0 && !alone)]);
}

fn removed(run: &mut Run, old: &Chain, tile: u64) {
    let Some(own) = old.tile(tile) else {
        return run.corrections.reached(ABSENT);
    };
    let [before, behind] = old.free_sides(own);
    run.corrections.reached(REMOVED[usize::from(before) + 2 * usize::from(behind)]);
    let plain = old.of_kind(TILE).iter().map(|number| old.length(*number)).max();
    run.corrections.reached_if(&[
        (REMOVED_PACKED, plain.is_some_and(|longest| old.length(own) < longest)),
        (REMOVED_LAST, own + 1 == old.records.len()),
    ]);
}
