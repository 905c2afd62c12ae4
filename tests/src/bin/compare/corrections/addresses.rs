//! Neither the answer nor the page depends on where in memory the buffer and the cells lie.

use gvrs_tests::build::bytes_of;
use gvrs_tests::library::correct_into;
use gvrs_tests::prng::Prng;
use gvrs_tests::second::correct::{correct, Call, Corrected};
use gvrs_tests::session::Session;
use gvrs_tests::worn_page::{open_worn_page, time, worn_page};

use super::ask::{as_numbers, with_room};
use crate::run::Run;

const ADDRESSES: &str = "a correction at eight addresses in memory";

pub fn section(run: &mut Run, random: &mut Prng) {
    run.corrections.want(ADDRESSES);
    for number in 0..run.times(200) {
        let page = if number % 4 == 0 { worn_page(random) } else { open_worn_page(random) };
        let page = bytes_of(&page);
        let session = Session::new(&page, 0, random);
        let tile = random.below(session.tile_count as usize) as u64;
        let call = match number % 4 {
            0 => Call::Open { time: time(random) },
            1 => Call::Store { tile, cells: random.bytes(session.tile_bytes()) },
            2 => Call::Remove { tile },
            _ => Call::Close { time: time(random) },
        };
        let buffer = with_room(&page, page.len());
        let corrected = correct(&buffer, page.len() as u64, &call);
        if (0..8).all(|before| is_so_at(before, &buffer, page.len(), &call, &corrected)) {
            run.corrections.reached(ADDRESSES);
        } else {
            run.fault(&format!("{call:?}: another page at another address"), &page);
        }
    }
}

/// With so many bytes in front of the buffer, in memory that is aligned to 8.
fn is_so_at(before: usize, buffer: &[u8], n: usize, call: &Call, corrected: &Corrected) -> bool {
    let mut memory = vec![0xa7; before];
    memory.extend(buffer);
    memory.extend([0xa7; 16]);
    let mut wanted = memory.clone();
    if let Ok(page) = corrected {
        wanted[before..before + page.len()].copy_from_slice(page);
    }
    let mut out = [0];
    let lent = &mut memory[before..before + buffer.len()];
    let number = correct_into(lent, n as u64, call, &mut out);
    (number, out[0]) == as_numbers(corrected) && memory == wanted
}
