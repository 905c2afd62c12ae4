//! Reads of files with bytes changed at random, of files cut short, and of random records.

use gvrs_tests::build::{build, make_checksums_good, Built, Role};
use gvrs_tests::prng::Prng;
use gvrs_tests::random_page::random_page;
use gvrs_tests::second::cells::Spot;

use super::ask::{routes, Asked};
use super::described::Described;
use crate::run::Run;

const CHANGED: &str = "bytes changed at random";
const JUDGED: &str = "judged fields changed at random";
const CUT: &str = "pages cut short";
const RECORDS: &str = "random records behind a good front";

pub fn section(run: &mut Run, random: &mut Prng) {
    for _ in 0..run.times(5000) {
        let page = random_page(random);
        let good = build(&page);
        let described = Described::new(&page, &good);
        let inside = described.at_random(random);
        let spot = described.spot(inside).expect("in the grid");
        let tile = described.index(inside.tile) as u64;
        for (sort, file) in changed_files(&good, tile as u32, random) {
            reads(run, sort, &file, spot, tile, random);
        }
    }
}

/// One file of each sort, made of a good one; of random records some have the index given.
pub fn changed_files(good: &Built, tile: u32, random: &mut Prng) -> [(&'static str, Vec<u8>); 4] {
    [
        (CHANGED, bytes_changed(good, random)),
        (JUDGED, field_changed(good, random)),
        (CUT, good.bytes[..random.below(good.bytes.len())].to_vec()),
        (RECORDS, random_records(good, tile, random)),
    ]
}

fn reads(run: &mut Run, sort: &str, file: &[u8], spot: Spot, tile: u64, random: &mut Prng) {
    let asked = Asked::new(file);
    for route in routes(random) {
        run.cell(sort, &asked, spot, route);
    }
    run.content(sort, &asked, tile, spot.element);
}

fn bytes_changed(good: &Built, random: &mut Prng) -> Vec<u8> {
    let mut file = good.bytes.clone();
    for _ in 0..random.between(1, 3) {
        let at = random.between(12, file.len() - 1);
        file[at] ^= 1 << random.below(8);
    }
    make_checksums_good(&mut file);
    file
}

/// A field that a rule looks at, mostly behind the header.
fn field_changed(good: &Built, random: &mut Prng) -> Vec<u8> {
    let mut fields = good.fields.clone();
    let behind_header = !random.one_in(4);
    fields.retain(|field| {
        let judged = !matches!(field.role, Role::Unjudged | Role::Checksum);
        judged && field.owner.is_some() == behind_header
    });
    let field = random.pick(&fields);
    let mut file = good.bytes.clone();
    file[field.at + random.below(field.width)] ^= 1 << random.below(8);
    make_checksums_good(&mut file);
    file
}

/// The page's own records in another order, some twice, some left out, perhaps an unknown one.
fn random_records(good: &Built, index: u32, random: &mut Prng) -> Vec<u8> {
    let mut file = good.bytes[..good.starts[0]].to_vec();
    for _ in 0..random.below(8) {
        if random.one_in(8) {
            file.extend(random_record(index, random));
        } else {
            let number = random.below(good.starts.len());
            let start = good.starts[number];
            file.extend(&good.bytes[start..start + good.length(number)]);
        }
    }
    make_checksums_good(&mut file);
    file
}

/// A record of any type; of a tile record this is a body at fault, mostly.
fn random_record(index: u32, random: &mut Prng) -> Vec<u8> {
    let length = 8 * random.between(2, 6);
    let mut record = random.bytes(length);
    record[..4].copy_from_slice(&(length as u32).to_le_bytes());
    record[4] = random.below(6) as u8;
    record[8..12].copy_from_slice(&index.to_le_bytes());
    record
}
