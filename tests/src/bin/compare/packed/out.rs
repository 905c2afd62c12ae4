//! How much of an answer goes into `out`, and that the answer depends on no address.

use gvrs_tests::library::{cell_with, cell_with_into, unpack_into};
use gvrs_tests::prng::Prng;
use gvrs_tests::second::cells::Spot;

use super::contents::good;
use super::holder::Holder;
use crate::reads::ask::{routes, Asked};
use crate::run::Run;

const SORT: &str = "packed contents: out of 0 to 7, eight addresses";
const MARK: u64 = 0x5a5a_5a5a_a5a5_a5a5;

const KINDS: [(u32, &str); 3] = [(34, "unpacked"), (14, "14"), (11, "11")];
const ADDRESSES: &str = "a packed content at eight addresses in memory";

pub fn section(run: &mut Run, random: &mut Prng) {
    for (_, kind) in KINDS {
        run.packed.want(&format!("out of 0 to 7: {kind}"));
    }
    run.packed.want(ADDRESSES);
    for _ in 0..run.times(300) {
        let good = good(random);
        let mut content = good.packed.bytes();
        if random.one_in(3) {
            content.pop();
        }
        let holder = Holder::new(good.type_code, good.tile, &content, random);
        let compressor = if random.one_in(3) { 256 } else { u32::from(content[0]) };
        let spots = holder.spots(random);
        if let Some((_, spot)) = random.pick_any(&spots) {
            of_lengths(run, &holder, spot, compressor, random);
            at_any_address(run, &holder, spot, compressor, random);
        }
    }
}

/// The number does not depend on `out`, which takes as many numbers as fit; all else stays.
fn of_lengths(run: &mut Run, holder: &Holder, spot: Spot, compressor: u32, random: &mut Prng) {
    let asked = Asked::new(holder.file());
    for length in 0..8 {
        let route = routes(random)[random.below(4)];
        let (number, numbers) = asked.meaning_with(spot, route, compressor).as_numbers();
        let mut memory = [MARK; 9];
        let out = &mut memory[1..1 + length];
        let answered = cell_with_into(holder.file(), spot, route, compressor, out);
        let mut expected = [MARK; 9];
        let fitting = length.min(5);
        expected[1..1 + fitting].copy_from_slice(&numbers[..fitting]);
        run.packed.asked(SORT);
        if (answered, memory) != (number, expected) {
            let text = format!("{SORT}: out of {length}: {answered}, {memory:x?}");
            run.fault(&text, holder.file());
        } else if let Some((_, kind)) = KINDS.iter().find(|(kind, _)| *kind == number) {
            run.packed.reached(&format!("out of 0 to 7: {kind}"));
        }
    }
}

fn at_any_address(run: &mut Run, holder: &Holder, spot: Spot, compressor: u32, random: &mut Prng) {
    let file = holder.file();
    let asked = Asked::new(file);
    let (tile, element) = holder.place();
    let whole = asked.cells_with(tile, element, compressor);
    let mut same = true;
    for before in 0..8 {
        let mut memory = vec![0xff; before];
        memory.extend(file);
        memory.extend([0xff; 16]);
        let moved = &memory[before..before + file.len()];
        let route = routes(random)[before % 4];
        let answer = asked.meaning_with(spot, route, compressor).as_numbers();
        same &= cell_with(moved, spot, route, compressor) == answer;
        let mut cells = vec![0; whole.bits().len()];
        let mut out = [0; 2];
        let number = unpack_into(moved, (tile, element), compressor, &mut cells, &mut out);
        same &= (number, out) == whole.as_numbers() && cells == whole.bits();
    }
    run.packed.asked(SORT);
    if same {
        run.packed.reached(ADDRESSES);
    } else {
        run.fault(&format!("{SORT}: another answer at another address"), file);
    }
}
