//! Document 01's sample sums that the check shows, those of Req 02, and published checksums.

use gvrs_tests::build::{build, bytes_of, make_checksums_good};
use gvrs_tests::page::{Body, Element, Metadata, Page, Tile, SHORT};
use gvrs_tests::prng::Prng;
use gvrs_tests::second::crc32c::crc32c;

use crate::run::Run;

const SORT: &str = "sample sums";

pub fn section(run: &mut Run, _: &mut Prng) {
    published_checksums(run);
    record_lengths(run);
    content_lengths(run);
    chain_samples(run);
    names(run);
    run.expect(SORT, "an empty file", &[], (1, 0));
}

/// `123456789`, and the four of RFC 3720 B.4.
fn published_checksums(run: &mut Run) {
    let rising: Vec<u8> = (0..32).collect();
    let falling: Vec<u8> = (0..32).rev().collect();
    let published: [(&[u8], u32); 5] = [
        (b"123456789", 0xe306_9283),
        (&[0; 32], 0x8a91_36aa),
        (&[0xff; 32], 0x62a8_ab43),
        (&rising, 0x46dd_794e),
        (&falling, 0x113f_db5c),
    ];
    for (bytes, checksum) in published {
        if crc32c(bytes) != checksum {
            run.fault("a published checksum is not met", bytes);
        }
    }
}

/// A page of Short elements with one tile record, each content of this length.
fn short_page(elements: usize, side: u32, length: usize) -> Page {
    let mut page = Page::of_sides([side, side], [side, side]);
    let names: [&[u8]; 2] = [b"a", b"b"];
    page.elements = names[..elements].iter().map(|name| Element::new(SHORT, name)).collect();
    let contents = vec![vec![7; length]; elements];
    page.insert(0, Body::Tile(Tile { index: 0, contents }));
    page
}

/// One Short, 2 by 2: 32. One Short, 1 by 1: 24. Two Shorts, 3 by 3: 64.
fn record_lengths(run: &mut Run) {
    for (elements, side, length) in [(1, 2, 32), (1, 1, 24), (2, 3, 64)] {
        let mut page = short_page(elements, side, 2 * (side * side) as usize);
        let built = build(&page);
        run.expect(SORT, "a tile record's length", &built.bytes, (0, 0));
        if built.length(0) != length {
            run.fault("a tile record has another length than the sample", &built.bytes);
        }
        page.records[0].surplus = 8;
        let built = build(&page);
        let start = built.starts[0] as u64;
        run.expect(SORT, "a tile record 8 longer", &built.bytes, (8, start));
    }
}

/// L 18, 17 and 1 of U 18 pass, 0 and 19 are at fault.
fn content_lengths(run: &mut Run) {
    for length in [18, 17, 1] {
        let page = short_page(1, 3, length);
        run.expect(SORT, "L of U 18", &bytes_of(&page), (0, 0));
    }
    for length in [0, 19] {
        let built = build(&short_page(1, 3, length));
        run.expect(SORT, "L of U 18", &built.bytes, (8, built.starts[0] as u64));
    }
}

/// A record of 16 passes stage 6; 8 or 20 does not. Opened and a broken chain together: 5.
fn chain_samples(run: &mut Run) {
    let mut page = Page::plain();
    page.insert(0, Body::Free(16));
    page.insert(0, Body::FileSpaceDirectory(vec![1]));
    let built = build(&page);
    run.expect(SORT, "a record of 16", &built.bytes, (0, 0));
    for length in [8, 20] {
        let mut damaged = built.clone();
        let field = damaged.named_in("record length", 1)[0];
        damaged.set(&field, length);
        make_checksums_good(&mut damaged.bytes);
        let start = damaged.starts[1] as u64;
        run.expect(SORT, "a record of 8 or 20", &damaged.bytes, (6, start));
        let opened = damaged.only("time opened");
        damaged.set(&opened, 1);
        make_checksums_good(&mut damaged.bytes);
        run.expect(SORT, "opened and a broken chain", &damaged.bytes, (5, 0));
    }
}

/// An element named `z_` is 3 at 0, a metadata record 8 at its start; a method passes.
fn names(run: &mut Run) {
    let mut page = Page::plain();
    page.elements[0].name = b"z_".to_vec();
    run.expect(SORT, "an element named z_", &bytes_of(&page), (3, 0));
    let mut page = Page::plain();
    page.insert(1, Body::Metadata(Metadata::new(b"z_", 0)));
    page.insert(2, Body::MetadataDirectory(vec![1]));
    let built = build(&page);
    let start = built.starts[1] as u64;
    run.expect(SORT, "a metadata record named z_", &built.bytes, (8, start));
    let mut page = Page::plain();
    page.methods = vec![b"z_".to_vec()];
    run.expect(SORT, "a method named z_", &bytes_of(&page), (0, 0));
}
