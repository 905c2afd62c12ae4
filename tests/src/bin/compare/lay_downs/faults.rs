//! What can be wrong with a lay-down, in the order in which it is judged.

use gvrs_tests::build::Built;
use gvrs_tests::page::Page;
use gvrs_tests::prng::Prng;
use gvrs_tests::second::fields::count_at;
use gvrs_tests::second::lay_down::Given;

use super::draft::{tile_bytes, Draft};
use crate::aims;
use crate::damage::{damaged_built, Aim, Damage};

#[derive(Clone, Copy)]
pub struct Fault {
    pub kind: Kind,
    /// The refusal.
    pub number: u32,
    pub sentence: &'static str,
    pub change: Change,
}

/// Kinds of faults. An earlier one decides.
#[derive(Clone, Copy, PartialEq)]
pub enum Kind {
    Stage1,
    Stage2,
    Stage3,
    LongerFront,
    Stage4,
    Input,
    FileCeiling,
    Room,
}

pub const KINDS: [Kind; 8] = [
    Kind::Stage1,
    Kind::Stage2,
    Kind::Stage3,
    Kind::LongerFront,
    Kind::Stage4,
    Kind::Input,
    Kind::FileCeiling,
    Kind::Room,
];

impl Kind {
    pub fn name(self) -> &'static str {
        match self {
            Kind::Stage1 => "1",
            Kind::Stage2 => "2",
            Kind::Stage3 => "3",
            Kind::LongerFront => "3, a longer front",
            Kind::Stage4 => "4 of the front",
            Kind::Input => "12",
            Kind::FileCeiling => "4 of the file",
            Kind::Room => "13",
        }
    }
}

/// How a fault is made of a draft at which nothing is wrong.
#[derive(Clone, Copy)]
pub enum Change {
    /// A damage to the front.
    Front(Damage),
    /// Bytes behind the header record.
    Longer(fn(&mut Vec<u8>, &mut Prng)),
    /// Another input; nothing where it can't be had of this one.
    Input(fn(&Page, &mut Given, &mut Prng) -> Option<()>),
    /// None: the file of the draft passes the ceiling.
    None,
    /// A buffer for a file of this length.
    Room(fn(usize, &mut Prng) -> usize),
}

pub fn all() -> Vec<Fault> {
    let mut faults = front_faults();
    faults.extend(longer_faults());
    faults.extend(input_faults());
    faults.push(Fault {
        kind: Kind::FileCeiling,
        number: 4,
        sentence: "the file would pass 16,777,216 bytes",
        change: Change::None,
    });
    faults.extend(room_faults());
    faults
}

/// What a draft becomes by these faults: the input, and the length of the buffer.
pub fn faulty(draft: &Draft, faults: &[Fault], random: &mut Prng) -> Option<(Given, usize)> {
    let mut given = draft.given.clone();
    let mut room = draft.file_length() + random.below(20);
    let mut damages = Vec::new();
    for fault in faults {
        match fault.change {
            Change::Front(damage) => damages.push(damage),
            Change::Input(change) => change(&draft.page, &mut given, random)?,
            Change::Room(change) => room = change(draft.file_length(), random),
            Change::Longer(_) | Change::None => (),
        }
    }
    if !damages.is_empty() {
        let (built, _) = damaged_built(&draft.page, &damages, random)?;
        given.front = stated_front(&built);
    }
    for fault in faults {
        if let Change::Longer(change) = fault.change {
            change(&mut given.front, random);
        }
    }
    Some((given, room))
}

/// The bytes up to where the header record says that it ends, if the file has them; else up to
/// where it ended before it was damaged.
fn stated_front(built: &Built) -> Vec<u8> {
    let bytes = &built.bytes;
    let stated = count_at(bytes, 16).map_or(usize::MAX, |length| 16 + length);
    let end = if stated <= bytes.len() { stated } else { built.starts[0].min(bytes.len()) };
    bytes[..end].to_vec()
}

// The front.

/// The damages of stages 1 to 4, but for those that take long files.
fn front_faults() -> Vec<Fault> {
    let kinds = [Kind::Stage1, Kind::Stage2, Kind::Stage3, Kind::Stage4];
    let mut aims = aims::all();
    aims.retain(|aim| aim.stage <= 4 && !aim.has_long_files());
    let fault = |aim: &Aim| Fault {
        kind: kinds[aim.stage as usize - 1],
        number: aim.stage,
        sentence: aim.sentence,
        change: Change::Front(aim.damage),
    };
    aims.iter().map(fault).collect()
}

fn longer_faults() -> Vec<Fault> {
    let fault = |sentence, change| Fault {
        kind: Kind::LongerFront,
        number: 3,
        sentence,
        change: Change::Longer(change),
    };
    vec![
        fault("a longer front: 1 to 24 bytes", some_bytes_more),
        fault("a longer front: a record behind the header", a_record_more),
    ]
}

fn some_bytes_more(front: &mut Vec<u8>, random: &mut Prng) {
    let count = random.between(1, 24);
    front.extend(if random.one_in(2) { vec![0; count] } else { random.bytes(count) });
}

/// An empty free record.
fn a_record_more(front: &mut Vec<u8>, _: &mut Prng) {
    front.extend([16, 0, 0, 0, 0, 0, 0, 0, 0, 0, 0, 0, 0, 0, 0, 0]);
}

// The input.

fn input_faults() -> Vec<Fault> {
    let fault = |sentence, change| Fault {
        kind: Kind::Input,
        number: 12,
        sentence,
        change: Change::Input(change),
    };
    vec![
        fault("the time is zero", time_zero),
        fault("two indexes are equal", equal),
        fault("two neighbouring indexes are swapped", swapped),
        fault("the indexes descend", descending),
        fault("an index is the tile count", index_is_tile_count),
        fault("an index is 0xFFFFFFFF", index_is_last_number),
        fault("an index is above the tile count", index_above),
        fault("one byte less", one_byte_less),
        fault("one byte more", one_byte_more),
        fault("no bytes", no_bytes),
        fault("the bytes of one tile less", one_tile_less),
        fault("the bytes of one tile more", one_tile_more),
        fault("bytes with padding counted", padding_counted),
    ]
}

fn time_zero(_: &Page, given: &mut Given, _: &mut Prng) -> Option<()> {
    given.time = 0;
    Some(())
}

/// Gives the tile of an index once more, right behind it.
fn equal(page: &Page, given: &mut Given, random: &mut Prng) -> Option<()> {
    let index = random.pick_any(&given.indexes)?;
    let at = given.indexes.partition_point(|other| *other <= index);
    given.indexes.insert(at, index);
    one_tile_more(page, given, random)
}

fn swapped(_: &Page, given: &mut Given, random: &mut Prng) -> Option<()> {
    let last = given.indexes.len().checked_sub(1).filter(|last| *last > 0)?;
    let at = random.below(last);
    given.indexes.swap(at, at + 1);
    Some(())
}

fn descending(_: &Page, given: &mut Given, _: &mut Prng) -> Option<()> {
    given.indexes.reverse();
    (given.indexes.len() > 1).then_some(())
}

/// Gives one tile more, behind the others.
fn with_index(page: &Page, given: &mut Given, index: u32, random: &mut Prng) -> Option<()> {
    given.indexes.push(index);
    one_tile_more(page, given, random)
}

fn index_is_tile_count(page: &Page, given: &mut Given, random: &mut Prng) -> Option<()> {
    with_index(page, given, page.tile_count() as u32, random)
}

fn index_is_last_number(page: &Page, given: &mut Given, random: &mut Prng) -> Option<()> {
    with_index(page, given, u32::MAX, random)
}

/// Indexes that are below the tile count where only some of their bits are looked at.
fn index_above(page: &Page, given: &mut Given, random: &mut Prng) -> Option<()> {
    let tiles = page.tile_count() as u32;
    let any = random.below(page.tile_count()) as u32;
    let above = [tiles + 1, tiles + any, 0x1_0000 + any, 0x8000_0000 + any, 0x7fff_ffff];
    with_index(page, given, random.pick(&above), random)
}

fn one_byte_less(_: &Page, given: &mut Given, _: &mut Prng) -> Option<()> {
    given.cells.pop().map(drop)
}

fn one_byte_more(_: &Page, given: &mut Given, random: &mut Prng) -> Option<()> {
    given.cells.push(random.byte());
    Some(())
}

fn no_bytes(_: &Page, given: &mut Given, _: &mut Prng) -> Option<()> {
    given.cells.clear();
    (!given.indexes.is_empty()).then_some(())
}

fn one_tile_less(page: &Page, given: &mut Given, _: &mut Prng) -> Option<()> {
    let length = given.cells.len().checked_sub(tile_bytes(page))?;
    given.cells.truncate(length);
    Some(())
}

fn one_tile_more(page: &Page, given: &mut Given, random: &mut Prng) -> Option<()> {
    given.cells.extend(random.bytes(tile_bytes(page)));
    Some(())
}

/// As many bytes as there would be with each element's padding.
fn padding_counted(page: &Page, given: &mut Given, _: &mut Prng) -> Option<()> {
    let sizes = (0..page.elements.len()).map(|element| page.uncompressed_size(element));
    let padded: usize = sizes.map(|size| size.next_multiple_of(4)).sum();
    let before = given.cells.len();
    given.cells.resize(padded * given.indexes.len(), 0);
    (given.cells.len() != before).then_some(())
}

// The buffer.

fn room_faults() -> Vec<Fault> {
    let fault = |sentence, change| Fault {
        kind: Kind::Room,
        number: 13,
        sentence,
        change: Change::Room(change),
    };
    vec![
        fault("a buffer one byte short", |length, _| length - 1),
        fault("a buffer of no byte", |_, _| 0),
        fault("a buffer that is too short", |length, random| random.below(length)),
    ]
}
