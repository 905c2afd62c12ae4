//! Texts of every alignment, empty texts and texts of 65,535 bytes, with elements of each type: where
//! the methods, the labels, the descriptions, the units and the product label stand.

use gvrs_tests::page::{Body, Element, Metadata, Page};
use gvrs_tests::prng::Prng;
use gvrs_tests::random_page::text_of;

use super::made::of_page;
use crate::face::facts;
use crate::run::Run;

const SORT: &str = "texts of every alignment and length";

const ALIGNMENTS: &str = "name, label, description and unit of every alignment, each type";
const LONGEST: [&str; 7] = [
    "a label of 65,535 bytes",
    "a description of 65,535 bytes",
    "a unit of 65,535 bytes",
    "a product label of 65,535 bytes",
    "a method's name of 65,535 bytes",
    "a metadata record's description of 65,535 bytes",
    "a metadata record's content of 70,000 bytes",
];
const EMPTY: &str = "every text empty";

const MOST: usize = 65_535;

pub fn section(run: &mut Run, random: &mut Prng) {
    for thing in LONGEST.into_iter().chain([ALIGNMENTS, EMPTY]) {
        run.said.want(thing);
    }
    alignments(run, random);
    for type_code in 0..if run.small { 1 } else { 4 } {
        lengths(run, type_code, random);
    }
}

/// The lists, and what the page and its elements are.
fn whole(run: &mut Run, page: &Page, random: &mut Prng) -> bool {
    facts::of_page(run, page, random);
    of_page(run, SORT, page, random)
}

/// A page of two elements of a type; the first has a name, a label, a description and a unit of these
/// lengths.
fn page_of(type_code: u8, lengths: [usize; 4], random: &mut Prng) -> Page {
    let mut page = Page::of_sides([1, 1], [1, 1]);
    let names = [vec![b'n'; lengths[0]], b"other".to_vec()];
    page.elements = names.map(|name| Element::new(type_code, &name)).to_vec();
    for element in &mut page.elements {
        element.range_and_fill = random.bytes(element.range_and_fill.len());
        element.continuous = random.byte();
    }
    let first = &mut page.elements[0];
    let [label, description, unit] = [1, 2, 3].map(|at| text_of(lengths[at], random));
    (first.label, first.description, first.unit) = (label, description, unit);
    page
}

fn alignments(run: &mut Run, random: &mut Prng) {
    let step = if run.small { 97 } else { 1 };
    let mut every = true;
    for number in (0..1024).step_by(step) {
        let part = |at: usize| number >> (2 * at) & 3;
        let lengths = [1 + part(0), part(1), part(2), part(3)];
        let mut page = page_of(part(4) as u8, lengths, random);
        page.raster_space = random.below(3) as u8;
        page.coordinate_system = random.below(3) as u8;
        page.label = text_of(random.below(5), random);
        page.methods = (0..random.below(3)).map(|at| random.bytes(at + 1)).collect();
        every &= whole(run, &page, random);
    }
    if every && step == 1 {
        run.said.reached(ALIGNMENTS);
    }
}

/// Every text empty, then each in turn as long as it can be.
fn lengths(run: &mut Run, type_code: u8, random: &mut Prng) {
    let mut bare = page_of(type_code, [1, 0, 0, 0], random);
    bare.methods = vec![Vec::new(), b"m".to_vec()];
    bare.insert(0, Body::Metadata(Metadata::new(b"a", 1)));
    bare.insert(1, Body::Metadata(Metadata::new(b"b", 1)));
    bare.insert(3, Body::MetadataDirectory(vec![1, 0]));
    if whole(run, &bare, random) {
        run.said.reached(EMPTY);
    }
    for (number, thing) in LONGEST.into_iter().enumerate() {
        let mut page = bare.clone();
        let text = text_of(MOST, random);
        let Body::Metadata(metadata) = &mut page.records[0].body else {
            unreachable!("a metadata record is the first");
        };
        match number {
            0 => page.elements[0].label = text,
            1 => page.elements[0].description = text,
            2 => page.elements[0].unit = text,
            3 => page.label = text,
            4 => page.methods[0] = random.bytes(MOST),
            5 => metadata.description = text,
            _ => metadata.content = random.bytes(70_000),
        }
        if whole(run, &page, random) {
            run.said.reached(thing);
        }
    }
}
