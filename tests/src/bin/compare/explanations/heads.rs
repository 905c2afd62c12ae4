//! Rules 1 to 32.

use gvrs_tests::build::Built;
use gvrs_tests::page::{Element, Page, INTEGER};

use super::broken::{ends, Breaker};

const SIDES: [&str; 4] = ["grid rows", "grid columns", "tile rows", "tile columns"];
const NEGATIVE: u64 = 0x8000_0000;

pub fn section(breaker: &mut Breaker) {
    first_bytes(breaker);
    record(breaker);
    sides_and_flags(breaker);
    elements(breaker);
    rest(breaker);
    ceilings(breaker);
}

/// Rules 1 to 4.
fn first_bytes(breaker: &mut Breaker) {
    for length in [0, 8, 15] {
        let file = breaker.good.bytes[..length].to_vec();
        breaker.file((1, 0, 0), file);
    }
    for at in ends(12) {
        breaker.patch((2, 0, 0), vec![(at, vec![b'!'])]);
    }
    for number in [0, 2, 255] {
        breaker.patch((3, 0, 12), vec![(12, vec![number])]);
        breaker.patch((4, 0, 13), vec![(13, vec![number])]);
    }
}

/// Rules 5 to 8.
fn record(breaker: &mut Breaker) {
    let length = breaker.good.only("header length");
    let own = breaker.good.value(&length);
    for more in [1, 4, 7] {
        breaker.set_there(5, 0, length, own + more);
    }
    breaker.set_there(5, 0, length, (own + 1) | NEGATIVE);
    breaker.set_there(6, 0, length, own | NEGATIVE);
    let whole = breaker.good.bytes.len() as u64 - 16;
    breaker.set_there(5, 0, length, whole + 9);
    for length_past in [whole + 8, 0x7fff_fff8] {
        breaker.set_there(7, 0, length, length_past);
    }
    for record_type in [0, 5, 7] {
        breaker.patch((8, 0, 20), vec![(20, vec![record_type])]);
    }
}

/// Rules 9 to 13.
fn sides_and_flags(breaker: &mut Breaker) {
    for (number, name) in SIDES.into_iter().enumerate() {
        let side = breaker.good.only(name);
        breaker.set_there(9, number, side, 0);
        breaker.set_there(10, number, side, NEGATIVE);
        breaker.set_there(10, number, side, 0xffff_ffff);
    }
    let codes = [(11, "checksum flag", 2), (12, "raster space", 3), (13, "coordinate system", 3)];
    for (rule, name, value) in codes {
        let field = breaker.good.only(name);
        breaker.set_there(rule, 0, field, value);
        breaker.set_there(rule, 0, field, 255);
    }
}

/// Rules 14 to 22.
fn elements(breaker: &mut Breaker) {
    let count = breaker.good.only("element count");
    breaker.set_there(14, 0, count, 0);
    breaker.set_there(15, 0, count, NEGATIVE);
    for number in ends(4) {
        let unit = breaker.good.named("element unit length")[number];
        breaker.set((16, 0, 284), unit, 0xffff);
    }
    for number in ends(4) {
        let types = breaker.good.named("element type");
        breaker.set_there(17, number, types[number], 4);
        breaker.set_there(17, number, types[number], 255);
        let names = breaker.good.named("element name");
        breaker.begin_with(18, number, names[number], b'_');
    }
    for (later, earlier) in [(1, 0), (2, 0), (3, 2)] {
        let names = breaker.good.named("element name");
        let name = breaker.page.elements[earlier].name.clone();
        let at = names[later].at;
        breaker.patch((19, later as u64, at as u64), vec![(at, name)]);
    }
    let texts = [(20, "element label"), (21, "element description"), (22, "element unit")];
    for (rule, name) in texts {
        for number in ends(4) {
            let field = breaker.good.named(name)[number];
            breaker.begin_with(rule, number, field, 0xff);
        }
    }
}

/// Rules 23 to 26.
fn rest(breaker: &mut Breaker) {
    let methods = breaker.good.only("method count");
    breaker.set_there(23, 0, methods, NEGATIVE | 2);
    let length = breaker.good.only("product label length");
    breaker.set_there(24, 0, length, 0xffff);
    let end = |built: &Built| {
        let label = built.only("product label");
        [0, label.at + label.width + 8]
    };
    breaker.change(25, |page| page.surplus = 8, end);
    for surplus in [16, 80] {
        breaker.change_alone(25, |page| page.surplus = surplus, end);
    }
    let label = breaker.good.only("product label");
    breaker.begin_with(26, 0, label, 0xff);
}

/// Rules 28 to 32.
fn ceilings(breaker: &mut Breaker) {
    for (number, (name, ceiling)) in
        SIDES.into_iter().zip([65_536, 65_536, 4_096, 4_096]).enumerate()
    {
        let side = breaker.good.only(name);
        breaker.set_there(28, number, side, ceiling + 1);
        breaker.set_there(28, number, side, 0x7fff_ffff);
    }
    let side = |value: u32| value.to_le_bytes().to_vec();
    breaker.patch((29, 0, 104), vec![(104, side(65_536)), (108, side(65_536))]);
    breaker.patch((31, 0, 112), vec![(112, side(4_096)), (116, side(4_096))]);
    let many = |page: &mut Page| {
        let more = page.elements.len() as u8..17;
        page.elements.extend(more.map(|at| Element::new(INTEGER, &[b'a' + at])));
    };
    breaker.change(30, many, |_| [0, 280]);
    let opened = breaker.good.only("time opened");
    for time in [1, 1 << 40, u64::MAX] {
        breaker.set_there(32, 0, opened, time);
    }
}
