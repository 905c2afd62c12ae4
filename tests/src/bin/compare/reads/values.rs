//! Fills as they are, bits as they are, and which of the two an answer is.

use gvrs_tests::build::build;
use gvrs_tests::page::{Body, Element, Page, Tile, FLOAT, INTEGER, INTEGER_CODED, SHORT};
use gvrs_tests::prng::Prng;
use gvrs_tests::random_page::text_of;
use gvrs_tests::second::cells::{Cell, Location, Spot};

use super::ask::Asked;
use super::described::fill;
use crate::run::Run;

const SORT: &str = "fills and bits";
const TYPES: [u8; 4] = [INTEGER, INTEGER_CODED, FLOAT, SHORT];

const OUTSIDE_RANGE: &str = "a fill outside its minimum and maximum, as it is";
const NAME_ALIGNMENTS: [&str; 4] = [
    "a fill behind a name of 4n bytes, each type",
    "a fill behind a name of 4n + 1 bytes, each type",
    "a fill behind a name of 4n + 2 bytes, each type",
    "a fill behind a name of 4n + 3 bytes, each type",
];
const INTEGER_FILL: &str = "an integer-coded element's fill is its integer fill";
const SHORT_FILL: &str = "a Short's fill is two bytes, junk behind it";
const EQUAL_TO_FILL: &str = "a stored cell whose bits equal the fill";
const NAN_STORED: &str = "a NaN's bits, stored";
const NAN_FILL: &str = "a NaN's bits, as fill";
const OTHER_BITS: &str = "bits of the ends of each type, stored and as fill";

pub fn section(run: &mut Run, random: &mut Prng) {
    for thing in NAME_ALIGNMENTS {
        run.reads.want(thing);
    }
    for thing in [OUTSIDE_RANGE, INTEGER_FILL, SHORT_FILL, EQUAL_TO_FILL] {
        run.reads.want(thing);
    }
    for thing in [NAN_STORED, NAN_FILL, OTHER_BITS] {
        run.reads.want(thing);
    }
    outside_the_range(run, random);
    behind_names(run, random);
    other_fields_of_the_block(run, random);
    equal_to_the_fill(run, random);
    patterns(run, random);
}

/// A grid of two tiles, 2 by 2 each, of which the second is stored.
fn half_stored(elements: Vec<Element>, contents: Vec<Vec<u8>>) -> Page {
    let mut page = Page::of_sides([2, 4], [2, 2]);
    page.elements = elements;
    page.insert(0, Body::Tile(Tile { index: 1, contents }));
    page
}

/// The absent tile's cells are this fill by every route.
fn fill_is(run: &mut Run, page: &Page, element: u64, bits: u32, thing: &str, random: &mut Prng) {
    let built = build(page);
    let asked = Asked::new(&built.bytes);
    let type_code = page.elements[element as usize].type_code;
    for (row, column) in [(0, 0), (1, 1)] {
        let spot = Spot { row, column, element };
        let location = Location { tile: 0, inside: 2 * row + column };
        let expected = Cell::Fill { type_code, bits, location };
        if run.cell_is_by_all(SORT, &asked, spot, expected, random) {
            run.reads.reached(thing);
        }
    }
}

fn outside_the_range(run: &mut Run, random: &mut Prng) {
    const RANGES: [[u32; 3]; 6] = [
        [10, 20, 5],
        [10, 20, 30],
        [20, 10, 15],
        [0, 100, 0x8000_8000],
        [0xffff_fff6, 10, 0x7fff_7fff],
        [0x3f80_0000, 0x4000_0000, 0xbf80_0000],
    ];
    for type_code in TYPES {
        for [minimum, maximum, fill] in RANGES {
            let mut element = Element::new(type_code, b"z");
            element.set_range_and_fill(minimum, maximum, fill);
            let size = element.cell_size();
            let bits = if size == 2 { fill & 0xffff } else { fill };
            let page = half_stored(vec![element], vec![vec![0; 4 * size]]);
            fill_is(run, &page, 0, bits, OUTSIDE_RANGE, random);
        }
    }
}

/// Names of 1 to 32 bytes, so that the block behind them lies on all four alignments, for the first
/// element and the one behind it.
fn behind_names(run: &mut Run, random: &mut Prng) {
    let step = if run.small { 5 } else { 1 };
    for type_code in TYPES {
        for length in (1..=32).step_by(step) {
            let mut first = Element::new(type_code, &vec![b'n'; length]);
            first.range_and_fill = random.bytes(first.range_and_fill.len());
            first.label = text_of(length % 5, random);
            let mut second = Element::new(random.below(4) as u8, b"second");
            second.range_and_fill = random.bytes(second.range_and_fill.len());
            let contents = vec![vec![0; 4 * first.cell_size()], vec![0; 4 * second.cell_size()]];
            let fills = [fill(&first), fill(&second)];
            let page = half_stored(vec![first, second], contents);
            for (element, bits) in fills.into_iter().enumerate() {
                let thing = NAME_ALIGNMENTS[length % 4];
                fill_is(run, &page, element as u64, bits, thing, random);
            }
        }
    }
}

fn other_fields_of_the_block(run: &mut Run, random: &mut Prng) {
    let mut coded = Element::new(INTEGER_CODED, b"z");
    for word in 0..8 {
        coded.range_and_fill[4 * word..4 * word + 4].copy_from_slice(&[word as u8 + 1; 4]);
    }
    coded.range_and_fill[8..12].copy_from_slice(&0x7fc0_0000u32.to_le_bytes());
    let page = half_stored(vec![coded], vec![vec![0; 16]]);
    fill_is(run, &page, 0, 0x0808_0808, INTEGER_FILL, random);
    let mut short = Element::new(SHORT, b"z");
    short.range_and_fill = (1..=12).collect();
    let page = half_stored(vec![short], vec![vec![0; 8]]);
    fill_is(run, &page, 0, 0x0a09, SHORT_FILL, random);
}

/// Every cell of a stored tile, if both elements of the page hold these bits.
fn stored_is(run: &mut Run, page: &Page, bits: u32, thing: &str, random: &mut Prng) {
    let built = build(page);
    let asked = Asked::new(&built.bytes);
    let contents = built.named("content");
    for (element, described) in page.elements.iter().enumerate() {
        for number in 0..4 {
            let spot = Spot { row: number / 2, column: 2 + number % 2, element: element as u64 };
            let place = contents[element].at as u64 + number * described.cell_size() as u64;
            let (type_code, location) = (described.type_code, Location { tile: 1, inside: number });
            let expected = Cell::Stored { type_code, bits, place, location };
            if run.cell_is_by_all(SORT, &asked, spot, expected, random) {
                run.reads.reached(thing);
            }
        }
    }
}

fn equal_to_the_fill(run: &mut Run, random: &mut Prng) {
    for type_code in TYPES {
        for bits in [0, 7, 0x8000, 0x7fc0_0000, 0xffff_ffff] {
            let elements = two_elements(type_code, bits);
            let bits = fill(&elements[0]);
            let contents = vec![four_cells(&elements[0], bits); 2];
            let page = half_stored(elements, contents);
            stored_is(run, &page, bits, EQUAL_TO_FILL, random);
        }
    }
}

fn two_elements(type_code: u8, fill: u32) -> Vec<Element> {
    let mut elements = vec![Element::new(type_code, b"first"), Element::new(type_code, b"second")];
    for element in &mut elements {
        element.set_range_and_fill(0, 0, fill);
    }
    elements
}

fn four_cells(element: &Element, bits: u32) -> Vec<u8> {
    bits.to_le_bytes()[..element.cell_size()].repeat(4)
}

/// Quiet and signalling NaNs of both signs with several payloads.
const NANS: [u32; 10] = [
    0x7fc0_0000,
    0xffc0_0000,
    0x7f80_0001,
    0xff80_0001,
    0x7fbf_ffff,
    0x7fa0_1234,
    0xffc1_2345,
    0x7fff_ffff,
    0xffff_ffff,
    0x7fc0_0001,
];

/// Both zeros, both infinities, the smallest numbers, the ends of Integer and of Short.
const OTHERS: [u32; 12] = [
    0,
    0x8000_0000,
    0x7f80_0000,
    0xff80_0000,
    1,
    0x8000_0001,
    0x7fff_ffff,
    0xffff_ffff,
    0x8000,
    0xffff,
    0x7fff,
    0x0001_8000,
];

fn patterns(run: &mut Run, random: &mut Prng) {
    for bits in NANS {
        pattern(run, FLOAT, bits, [NAN_STORED, NAN_FILL], random);
    }
    for type_code in TYPES {
        for bits in OTHERS {
            pattern(run, type_code, bits, [OTHER_BITS; 2], random);
        }
    }
}

/// These bits stored while the fill is another, and as the fill while others are stored.
fn pattern(run: &mut Run, type_code: u8, bits: u32, things: [&str; 2], random: &mut Prng) {
    let elements = two_elements(type_code, !bits);
    let size = elements[0].cell_size();
    let kept = if size == 2 { bits & 0xffff } else { bits };
    let contents = vec![four_cells(&elements[0], bits); 2];
    let page = half_stored(elements, contents);
    stored_is(run, &page, kept, things[0], random);
    let elements = two_elements(type_code, bits);
    let contents = vec![four_cells(&elements[0], !bits); 2];
    let page = half_stored(elements, contents);
    fill_is(run, &page, 0, kept, things[1], random);
    fill_is(run, &page, 1, kept, things[1], random);
}
