//! Contents with bits turned, cut, or of random bytes behind the right index.

use gvrs_tests::prng::Prng;
use gvrs_tests::second::cells::Cells;

use super::contents::{good, Good};
use super::holder::Holder;
use crate::reads::ask::{routes, Asked};
use crate::run::Run;

const TURNED: &str = "packed contents with bits turned";
const CUT: &str = "packed contents cut and lengthened";
const RANDOM: &str = "random bytes as packed contents";
const LIKELY: &str = "random bits behind a head that fits";

const SORTS: [&str; 4] = [TURNED, CUT, RANDOM, LIKELY];

pub fn section(run: &mut Run, random: &mut Prng) {
    for sort in SORTS {
        for outcome in ["unpacked", "14"] {
            if (sort, outcome) != (RANDOM, "unpacked") {
                run.packed.want(&format!("{sort}: {outcome}"));
            }
        }
    }
    for _ in 0..run.times(4000) {
        let good = good(random);
        for sort in SORTS {
            let mut content = match sort {
                TURNED => turned(&good, random),
                CUT => cut(&good, random),
                RANDOM => random_bytes(&good, random),
                _ => likely(&good, random),
            };
            content.truncate(good.uncompressed() - 1);
            one(run, sort, &good, &content, random);
        }
    }
}

fn one(run: &mut Run, sort: &'static str, good: &Good, content: &[u8], random: &mut Prng) {
    let holder = Holder::new(good.type_code, good.tile, content, random);
    let asked = Asked::new(holder.file());
    let index = u32::from(content[0]);
    let cells = run.unpack(sort, &asked, holder.place(), index);
    let outcome = match cells {
        Some(Cells::Unpacked { .. }) => "unpacked",
        Some(Cells::Refused((14, _))) => "14",
        Some(_) => {
            run.fault(&format!("{sort}: neither unpacked nor 14"), holder.file());
            return;
        }
        None => return,
    };
    run.packed.reached(&format!("{sort}: {outcome}"));
    for (_, spot) in holder.spots(random).into_iter().take(2) {
        let route = routes(random)[random.below(4)];
        run.cell_with(sort, &asked, spot, route, index);
    }
}

/// Behind the index.
fn turned(good: &Good, random: &mut Prng) -> Vec<u8> {
    let mut content = good.packed.bytes();
    for _ in 0..random.between(1, 2) {
        let at = random.between(1, content.len() - 1);
        content[at] ^= 1 << random.below(8);
    }
    content
}

fn cut(good: &Good, random: &mut Prng) -> Vec<u8> {
    let mut content = good.packed.bytes();
    if random.one_in(2) {
        content.truncate(random.between(1, content.len()));
    } else {
        content.extend(random.bytes(4));
    }
    content
}

fn random_bytes(good: &Good, random: &mut Prng) -> Vec<u8> {
    let length = random.between(1, good.uncompressed() - 1);
    random.bytes(length)
}

/// Few leaves, a right count, and bits that are mostly leaves.
fn likely(good: &Good, random: &mut Prng) -> Vec<u8> {
    let mut content = good.packed.bytes();
    content.truncate(11);
    content[1] = random.below(3) as u8;
    content[6..10].copy_from_slice(&(good.cells.len() as u32 - 1).to_le_bytes());
    content[10] = random.below(3) as u8;
    let room = good.uncompressed() - 1 - content.len();
    // A first bit that is a leaf where one is told, else a branch and a leaf.
    let mut bits = random.bytes(room);
    if let Some(first) = bits.first_mut() {
        *first = if content[10] == 0 { *first | 1 } else { *first & !1 | 2 };
    }
    content.extend(bits);
    content
}
