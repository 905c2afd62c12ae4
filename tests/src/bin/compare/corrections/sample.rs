//! The samples of Req 03 on document 01's page, byte by byte: header to 336, tile 2 at 336, tile
//! directory at 368, 424 bytes.

use gvrs_tests::build::{bytes_of, make_checksum_good};
use gvrs_tests::page::{Body, Element, Page, Tile, SHORT};
use gvrs_tests::prng::Prng;
use gvrs_tests::second::correct::Call;
use gvrs_tests::second::crc32c::crc32c;

use crate::run::Run;

const SORT: &str = "the samples of Req 03";

const OPENED: &str = "sample: opened with 9, byte 48 and the header's checksum";
const STORED: &str = "sample: tile 0 stored, 456 bytes, its reference 54";
const REMOVED: &str = "sample: tile 2 removed, a free record of 32 at 336";
const AGAIN: &str = "sample: tile 3 stored at 336 again";
const CLOSED: &str = "sample: closed with one free record, a directory of 32 bytes";
const CLOSED_FULL: &str = "sample: closed without a free record, no directory";
const TAKES: &str =
    "sample: a free record of 32, 48 or 56 takes a record of 32, one of 40 does not";

pub fn page() -> Vec<u8> {
    bytes_of(&description())
}

fn description() -> Page {
    let mut page = Page::of_sides([3, 3], [2, 2]);
    page.elements = vec![Element::new(SHORT, b"z")];
    let contents = vec![vec![11, 0, 12, 0, 13, 0, 14, 0]];
    page.insert(0, Body::Tile(Tile { index: 2, contents }));
    page
}

pub fn section(run: &mut Run, _: &mut Prng) {
    for thing in [OPENED, STORED, REMOVED, AGAIN, CLOSED, CLOSED_FULL, TAKES] {
        run.corrections.want(thing);
    }
    if steps(run).is_none() {
        run.fault("a sample of Req 03 is not done", &page());
    }
    takes(run);
}

fn is(run: &mut Run, thing: &str, page: &[u8], wanted: &[u8]) {
    if page == wanted {
        run.corrections.reached(thing);
    } else {
        run.fault(&format!("not so: {thing}"), page);
    }
}

/// One call after another, each with what it has to leave.
fn steps(run: &mut Run) -> Option<()> {
    let mut wanted = page();
    let opened = run.corrected(SORT, &wanted, 0, &Call::Open { time: 9 })?;
    wanted[48] = 9;
    seal(&mut wanted[16..336]);
    is(run, OPENED, &opened, &wanted);

    let cells = vec![1, 2, 3, 4, 5, 6, 7, 8];
    let stored = run.corrected(SORT, &opened, 32, &Call::Store { tile: 0, cells })?;
    wanted.extend([32, 0, 0, 0, 2, 0, 0, 0, 0, 0, 0, 0, 8, 0, 0, 0, 1, 2, 3, 4, 5, 6, 7, 8]);
    wanted.extend([0; 8]);
    seal(&mut wanted[424..456]);
    wanted[400] = 54;
    seal(&mut wanted[368..424]);
    is(run, STORED, &stored, &wanted);

    let removed = run.corrected(SORT, &stored, 0, &Call::Remove { tile: 2 })?;
    wanted[336..368].fill(0);
    wanted[336] = 0x20;
    let checksum = crc32c(&[0x20, 0, 0, 0, 0, 0, 0, 0]);
    wanted[364..368].copy_from_slice(&checksum.to_le_bytes());
    wanted[408] = 0;
    seal(&mut wanted[368..424]);
    is(run, REMOVED, &removed, &wanted);

    let closed = run.corrected(SORT, &removed, 32, &Call::Close { time: 0x0a0b })?;
    let mut with_list = wanted.clone();
    with_list.extend([32, 0, 0, 0, 3, 0, 0, 0, 1, 0, 0, 0]);
    with_list.extend([0x50, 1, 0, 0, 0, 0, 0, 0, 32, 0, 0, 0]);
    with_list.extend([0; 8]);
    seal(&mut with_list[456..488]);
    with_list[40..48].copy_from_slice(&[0x0b, 0x0a, 0, 0, 0, 0, 0, 0]);
    with_list[48] = 0;
    with_list[56..64].copy_from_slice(&[0xd0, 1, 0, 0, 0, 0, 0, 0]);
    seal(&mut with_list[16..336]);
    is(run, CLOSED, &closed, &with_list);

    let cells = vec![9; 8];
    let again = run.corrected(SORT, &removed, 0, &Call::Store { tile: 3, cells })?;
    wanted[336..360].copy_from_slice(&[
        32, 0, 0, 0, 2, 0, 0, 0, 3, 0, 0, 0, 8, 0, 0, 0, 9, 9, 9, 9, 9, 9, 9, 9,
    ]);
    seal(&mut wanted[336..368]);
    wanted[412] = 43;
    seal(&mut wanted[368..424]);
    is(run, AGAIN, &again, &wanted);

    let closed = run.corrected(SORT, &again, 0, &Call::Close { time: 1 << 63 })?;
    wanted[40..48].copy_from_slice(&[0, 0, 0, 0, 0, 0, 0, 0x80]);
    wanted[48] = 0;
    seal(&mut wanted[16..336]);
    is(run, CLOSED_FULL, &closed, &wanted);
    Some(())
}

fn seal(record: &mut [u8]) {
    make_checksum_good(record, true);
}

/// The only free record, of each length, in front of tile 2.
fn takes(run: &mut Run) {
    for length in (16..=80).step_by(8) {
        let mut page = description();
        page.time_opened = 1;
        page.insert(0, Body::Free(length));
        let page = bytes_of(&page);
        let call = Call::Store { tile: 1, cells: vec![7; 8] };
        let Some(stored) = run.corrected(SORT, &page, 32, &call) else {
            continue;
        };
        let taken = length == 32 || length >= 48;
        let start = if taken { 336 } else { page.len() };
        let good = stored[start..start + 12] == [32, 0, 0, 0, 2, 0, 0, 0, 1, 0, 0, 0]
            && stored.len() == page.len() + if taken { 0 } else { 32 };
        if good {
            run.corrections.reached(TAKES);
        } else {
            run.fault(&format!("not so: {TAKES}: {length}"), &stored);
        }
    }
}
