//! Fronts with bytes changed at random, with extreme counts, cut short and lengthened.

use gvrs_tests::build::{build, Role};
use gvrs_tests::prng::Prng;
use gvrs_tests::second::lay_down::Given;

use super::draft::Draft;
use crate::run::Run;

const CHANGED: &str = "fronts with bytes changed at random";
const HOSTILE: &str = "fronts with extreme counts";
const LENGTHS: &str = "fronts of every length";
const RANDOM: &str = "random bytes for a front";

/// Bytes of the files whose fronts are changed.
const MOST_BYTES: usize = 20_000;
/// Room for a file whose tiles are other ones than before.
const MORE_ROOM: usize = 4096;

pub fn section(run: &mut Run, random: &mut Prng) {
    for _ in 0..run.times(1500) {
        let draft = Draft::short(MOST_BYTES, random);
        for _ in 0..8 {
            bytes_changed(run, &draft, random);
        }
    }
    for _ in 0..run.times(60) {
        counts(run, &Draft::short(MOST_BYTES, random), random);
    }
    for _ in 0..run.times(10) {
        lengths(run, &Draft::short(MOST_BYTES, random), random);
    }
    for _ in 0..run.times(500) {
        random_bytes(run, random);
    }
}

/// The tiles given, or none, so that a front that says other sides is often laid down.
fn with_front(draft: &Draft, front: Vec<u8>, random: &mut Prng) -> Given {
    let mut given = Given { front, ..draft.given.clone() };
    if random.one_in(2) {
        given.indexes.clear();
        given.cells.clear();
    }
    given
}

fn bytes_changed(run: &mut Run, draft: &Draft, random: &mut Prng) {
    let mut front = draft.given.front.clone();
    for _ in 0..random.between(1, 3) {
        let at = random.between(12, front.len() - 1);
        match random.below(3) {
            0 => front[at] = random.byte(),
            1 => front[at] = front[at].wrapping_add(1),
            _ => front[at] ^= 1 << random.below(8),
        }
    }
    let given = with_front(draft, front, random);
    run.lay_down(CHANGED, &given, draft.file_length() + MORE_ROOM);
}

/// Extreme values in every count, length and side of the front.
fn counts(run: &mut Run, draft: &Draft, random: &mut Prng) {
    let mut built = build(&draft.page);
    let fields = built.of_role(Role::Count);
    for field in fields.iter().filter(|field| field.owner.is_none()) {
        let own = built.value(field);
        let mut values = vec![0, 1, 8, own.wrapping_sub(1), own + 1, own + 8, 0x7fff, 0xffff];
        if field.width == 4 {
            values.extend([0x7fff_ffff, 0x7fff_fff8, 0x8000_0000, 0xffff_fff8, 0xffff_ffff]);
            values.extend([4096, 4097, 0x1_0000, 0x1_0001, 0x4000_0000, own | 0x8000_0000]);
        }
        for value in values {
            built.set(field, value);
            let front = built.bytes[..built.starts[0]].to_vec();
            let given = with_front(draft, front, random);
            run.lay_down(HOSTILE, &given, draft.file_length() + MORE_ROOM);
        }
        built.set(field, own);
    }
}

/// Cut to every length, and up to 24 bytes longer.
fn lengths(run: &mut Run, draft: &Draft, random: &mut Prng) {
    let whole = draft.given.front.len();
    let step = if run.small { 16 } else { 1 };
    for length in (0..whole + 24).step_by(step) {
        let mut front = draft.given.front.clone();
        front.resize(length, random.byte());
        let given = with_front(draft, front, random);
        let refused = run.lay_down(LENGTHS, &given, draft.file_length());
        if length != whole && refused.is_some_and(|laid| laid.is_ok()) {
            run.fault("a front of another length is laid down", &given.front);
        }
    }
}

fn random_bytes(run: &mut Run, random: &mut Prng) {
    let length = random.below(800);
    let mut front = random.bytes(length);
    if length >= 21 {
        front[..14].copy_from_slice(b"gvrs raster\0\x01\x04");
        front[16..20].copy_from_slice(&(length as u32 - 16).to_le_bytes());
        front[20] = 6;
    }
    let given = Given { front, time: 1, indexes: vec![0], cells: vec![7; random.below(9)] };
    run.lay_down(RANDOM, &given, 4096);
}
