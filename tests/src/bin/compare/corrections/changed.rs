//! Open pages and accepted files with bytes changed at random, with extreme numbers in any field,
//! cut short, of random records, and with the length of fewer records: whatever both answer.

use gvrs_tests::build::{build, make_checksums_good, Built, Role};
use gvrs_tests::page::Page;
use gvrs_tests::prng::Prng;
use gvrs_tests::second::correct::Call;
use gvrs_tests::worn_page::{open_worn_page, time, worn_page};

use super::ask::with_room;
use crate::reads::bytes_changed::changed_files;
use crate::run::Run;

const CHANGED: &str = "changed pages";
const EXTREME: &str = "extreme numbers";
const STALE: &str = "bytes changed, checksums left";
const FEWER: &str = "the length of fewer records";

const STILL_OPEN: &str = "a page without its last records that is open too";
const DONE: &str = "a changed page that is corrected all the same";

pub fn section(run: &mut Run, random: &mut Prng) {
    run.corrections.want(DONE);
    run.corrections.want(STILL_OPEN);
    for number in 0..run.times(1200) {
        let page = if number % 3 == 0 { worn_page(random) } else { open_worn_page(random) };
        let good = build(&page);
        let tile = random.below(page.tile_count()) as u32;
        for (_, file) in changed_files(&good, tile, random) {
            calls(run, CHANGED, &page, &file, random);
        }
        calls(run, EXTREME, &page, &extreme(&good, random), random);
        let mut stale = good.bytes.clone();
        let at = random.below(stale.len());
        stale[at] ^= 1 << random.below(8);
        calls(run, STALE, &page, &stale, random);
        fewer_records(run, &page, &good, random);
    }
}

/// What stands behind that length is no part of the page.
fn fewer_records(run: &mut Run, page: &Page, good: &Built, random: &mut Prng) {
    let bytes: usize = (0..page.elements.len()).map(|e| page.uncompressed_size(e)).sum();
    let tile = random.below(page.tile_count()) as u64;
    let all = [
        Call::Open { time: time(random) },
        Call::Store { tile, cells: random.bytes(bytes) },
        Call::Remove { tile },
        Call::Close { time: time(random) },
    ];
    let last = good.starts.len().saturating_sub(2);
    for start in &good.starts[last..] {
        let call = random.pick(&all);
        let answer = run.correct(FEWER, &good.bytes, *start as u64, &call);
        if matches!(answer, Some(Ok(_))) && page.time_opened != 0 {
            run.corrections.reached(STILL_OPEN);
        }
    }
}

/// A count, a length, a side or a reference, next to its own value or far from it.
fn extreme(good: &Built, random: &mut Prng) -> Vec<u8> {
    let mut built = good.clone();
    let fields = [good.of_role(Role::Count), good.of_role(Role::Reference)].concat();
    let field = random.pick(&fields);
    let own = good.value(&field);
    let near = [own ^ 1, own ^ 8, own + 1, own + 8, own.wrapping_sub(8), own.wrapping_sub(1)];
    let far = [0, 16, 0x7fff_ffff, 0x7fff_fff8, 0x8000_0000, 0xffff_ffff, u64::MAX, 1 << 63];
    let value = if random.one_in(2) { random.pick(&near) } else { random.pick(&far) };
    built.set(&field, value);
    make_checksums_good(&mut built.bytes);
    built.bytes
}

/// All four, with what would be right on the page as it was.
fn calls(run: &mut Run, sort: &str, page: &Page, file: &[u8], random: &mut Prng) {
    let bytes: usize = (0..page.elements.len()).map(|e| page.uncompressed_size(e)).sum();
    let tile = random.below(page.tile_count()) as u64;
    let buffer = with_room(file, random.below(2 * bytes + 200));
    let all = [
        Call::Open { time: time(random) },
        Call::Store { tile, cells: random.bytes(bytes) },
        Call::Remove { tile },
        Call::Close { time: time(random) },
    ];
    for call in all {
        if let Some(Ok(_)) = run.correct(sort, &buffer, file.len() as u64, &call) {
            run.corrections.reached(DONE);
        }
    }
}
