//! The sample sums of Req 12, and one of each of its readings.

use gvrs_tests::build::build;
use gvrs_tests::page::{Body, Page, Tile};
use gvrs_tests::second::start::Start;

use crate::run::Run;

const SORT: &str = "sample sums of the first half";

/// The identification block.
const BLOCK: [u8; 16] = *b"gvrs raster\0\x01\x04\0\0";
/// Another version.
const OTHER: [u8; 16] = *b"gvrs raster\0\x01\x03\0\0";

pub fn section(run: &mut Run) {
    without_a_header(run);
    shorter_files(run);
    lengths_of_a_header(run);
    sample_page(run);
}

fn refused(run: &mut Run, what: &str, first: &[u8], length: u64, number: u32) {
    run.start_is(SORT, what, (first, length), Start::numbered(number));
}

fn needs(run: &mut Run, what: &str, first: &[u8], length: u64, needed: u64) {
    run.start_is(SORT, what, (first, length), Start::needing(needed));
}

fn without_a_header(run: &mut Run) {
    refused(run, "nothing", &[], 0, 1);
    needs(run, "nothing", &[], 1, 1);
    refused(run, "1 byte", &[0], 0, 12);
    needs(run, "15 bytes of zero", &[0; 15], 16, 16);
    refused(run, "16 bytes of zero", &[0; 16], 16, 1);
    refused(run, "good block", &BLOCK, 16, 3);
    needs(run, "good block", &BLOCK, 20, 20);
    refused(run, "good block and 4 zeros", &[&BLOCK[..], &[0; 4]].concat(), 20, 3);
}

/// "Each all of a shorter file"; a stage that lacks a byte does not go by those that it has.
fn shorter_files(run: &mut Run) {
    refused(run, "10 bytes", &BLOCK[..10], 10, 1);
    needs(run, "5 bytes", &BLOCK[..5], 10, 10);
    needs(run, "13 other bytes", &[0xff; 13], 16, 16);
    needs(run, "13 other bytes", &[0xff; 13], u64::MAX, 16);
    needs(run, "14 bytes of another version", &OTHER[..14], 16, 16);
    for given in 16..20 {
        let good = [&BLOCK[..], &[0; 4]].concat();
        needs(run, "good block and some zeros", &good[..given], 20, 20);
        let other = [&OTHER[..], &[0; 4]].concat();
        refused(run, "another version and some zeros", &other[..given], 20, 2);
    }
    refused(run, "17 bytes of zero", &[0; 17], 16, 12);
    refused(run, "good block and a byte", &[&BLOCK[..], &[0]].concat(), 16, 12);
}

/// A good block and the first eight bytes of a header: its length, its type, three reserved bytes.
fn begun(length: u32, record_type: u8) -> Vec<u8> {
    [&BLOCK[..], &length.to_le_bytes(), &[record_type, 0, 0, 0]].concat()
}

/// "If the header's length is lawful, the whole header", whatever its type is.
fn lengths_of_a_header(run: &mut Run) {
    needs(run, "length 1000, type 5", &begun(1000, 5), 1016, 1016);
    refused(run, "length 1000, type 5", &begun(1000, 5), 1015, 3);
    needs(run, "length 1000, type 6", &begun(1000, 6), u64::MAX, 1016);
    needs(run, "length 64", &begun(64, 6), 80, 80);
    refused(run, "length 64 and 56 zeros", &[&begun(64, 6)[..], &[0; 56]].concat(), 80, 3);
    for length in [0, 8] {
        refused(run, "length 0 or 8", &begun(length, 6), 1000, 3);
    }
    refused(run, "length 1004", &begun(1004, 6), 10_000, 3);
    needs(run, "the greatest length", &begun(0x7fff_fff8, 6), 0x8000_0008, 0x8000_0008);
    refused(run, "the greatest length", &begun(0x7fff_fff8, 6), 0x8000_0007, 3);
    for length in [0x8000_0000, 0xffff_fff8] {
        refused(run, "a negative length", &begun(length, 6), u64::MAX, 3);
    }
}

/// A 3 by 3 grid with 2 by 2 tiles, one element, tile 2 alone stored.
fn sample_page(run: &mut Run) {
    let mut page = Page::of_sides([3, 3], [2, 2]);
    page.insert(0, Body::Tile(Tile { index: 2, contents: vec![vec![7; 16]] }));
    let built = build(&page);
    let end = built.starts[0];
    let (header, whole) = (&built.bytes[..end], built.bytes.len() as u64);
    let less = &header[..end - 1];
    needs(run, "sample page's header less its last byte", less, 16_777_217, end as u64);
    refused(run, "sample page's header", header, 16_777_216, 0);
    refused(run, "sample page's header", header, 16_777_217, 4);
    refused(run, "sample page's header", header, u64::MAX, 4);
    needs(run, "sample page's header less its last byte", less, u64::MAX, end as u64);
    refused(run, "sample page's header alone", header, end as u64, 0);
    refused(run, "sample page's header, one byte too many", header, end as u64 - 1, 12);
    refused(run, "sample page's header", header, whole, 0);
    refused(run, "sample page", &built.bytes, whole, 0);
    let mut other = header.to_vec();
    other[20] = 5;
    refused(run, "another type, above the ceiling", &other, 16_777_217, 3);
    needs(run, "another type, a byte less", &other[..end - 1], 16_777_217, end as u64);
}
