//! Rules 33 to 48.

use gvrs_tests::build::Built;
use gvrs_tests::page::{Body, Page};

use super::broken::{ends, Breaker};
use super::pages::{METADATA, TILES};

const NEGATIVE: u64 = 0x8000_0000;

pub fn section(breaker: &mut Breaker) {
    chain(breaker);
    checksums(breaker);
    for (record, _) in TILES {
        tile(breaker, record);
    }
    for record in METADATA {
        metadata(breaker, record);
    }
}

/// Rules 33 to 37.
fn chain(breaker: &mut Breaker) {
    for number in ends(breaker.good.starts.len()) {
        let length = breaker.good.named_in("record length", number)[0];
        let own = breaker.good.value(&length);
        let left = (breaker.good.bytes.len() - length.at) as u64;
        for short in [0, 8, 15] {
            breaker.set_there(33, number, length, short);
        }
        breaker.set_there(34, number, length, own | NEGATIVE);
        breaker.set_there(34, number, length, (own + 1) | NEGATIVE);
        for longer in [own + 1, own + 4, own + 7, left + 9] {
            breaker.set_there(35, number, length, longer);
        }
        breaker.set_there(36, number, length, left + 8);
        breaker.set_there(36, number, length, 0x7fff_fff8);
        let record_type = breaker.good.named_in("record type", number)[0];
        breaker.set_there(37, number, record_type, 6);
        breaker.set_there(37, number, record_type, 255);
    }
}

/// Rule 38: the header is 0.
fn checksums(breaker: &mut Breaker) {
    let checksums = breaker.good.named("checksum");
    for number in ends(checksums.len()) {
        let at = checksums[number].at;
        for byte in 0..4 {
            breaker.turn((38, number as u64, at as u64), at + byte, 0x81);
        }
    }
}

/// Rules 39 to 44.
fn tile(breaker: &mut Breaker, number: usize) {
    let index = breaker.good.named_in("tile index", number)[0];
    breaker.set_there(39, number, index, NEGATIVE);
    breaker.set_there(40, number, index, 9);
    breaker.set_there(40, number, index, 0x7fff_ffff);
    let lengths = breaker.good.named_in("content length", number);
    let start = breaker.good.starts[number] as u64;
    breaker.set((41, number as u64, start), lengths[3], 0x7fff_ffff);
    surplus(breaker, number);
    for element in ends(4) {
        content_of(breaker, number, element, 43, 0);
        let most = breaker.page.uncompressed_size(element);
        content_of(breaker, number, element, 44, most + 1);
    }
}

/// A content of another length, in a record of the right length.
fn content_of(breaker: &mut Breaker, number: usize, element: usize, rule: u64, length: usize) {
    let change = |page: &mut Page| {
        if let Body::Tile(tile) = &mut page.records[number].body {
            tile.contents[element] = vec![1; length];
        }
    };
    breaker.change(rule, change, move |built| {
        [element, built.named_in("content length", number)[element].at]
    });
}

/// Rule 42.
fn surplus(breaker: &mut Breaker, number: usize) {
    let start = move |built: &Built| [number, built.starts[number]];
    breaker.change(42, |page| page.records[number].surplus = 8, start);
    breaker.change_alone(42, |page| page.records[number].surplus = 16, start);
}

/// Rules 45, 41, 42 and 46 to 48.
fn metadata(breaker: &mut Breaker, number: usize) {
    let field = |name| breaker.good.named_in(name, number)[0];
    let [length, described, data_type] =
        ["metadata content length", "metadata description length", "metadata type"].map(field);
    let [name, description] = ["metadata name", "metadata description"].map(field);
    let start = breaker.good.starts[number] as u64;
    breaker.set_there(45, number, length, NEGATIVE | 5);
    breaker.set((41, number as u64, start), described, 0xffff);
    surplus(breaker, number);
    breaker.begin_with(46, number, name, b'1');
    breaker.set_there(47, number, data_type, 10);
    breaker.set_there(47, number, data_type, 255);
    breaker.begin_with(48, number, description, 0xff);
}
