//! What pages and their elements are, as their descriptions have them.

use gvrs_tests::build::{build, Built};
use gvrs_tests::library::{element_into, element_said_into, page_into, page_said_into};
use gvrs_tests::page::{Element, Page, Record, INTEGER_CODED, SHORT};
use gvrs_tests::prng::Prng;
use gvrs_tests::random_page::{random_page, text_of};
use gvrs_tests::second::chain;
use gvrs_tests::second::facts::{ELEMENT_SAID, PAGE_SAID};

use crate::reads::ask::Asked;
use crate::reads::described::fill;
use crate::reads::numbers::{outside, OUTSIDE};
use crate::run::Run;

const SORT: &str = "pages and elements as described";
const ELEMENT_SORT: &str = "elements that are not there";

const NO_TILE: &str = "a page without a tile record";
const TILES: &str = "a page with several tile records";
const NO_METADATA: &str = "a page without a metadata record";
const METADATA: &str = "a page with several metadata records";
const CHECKSUMS: [&str; 2] = ["a page with checksums off", "a page with checksums on"];
const OVER_THE_EDGE: &str = "a page whose last tiles reach over the edge, down and across";
const UNLIKE_SIDES: &str = "a page with four sides that differ, and more tiles down than across";
const HIGH_TIME: &str = "a time modified of 2^63 or more";
const SIXTEEN: &str = "the last of 16 elements";
const TYPES: [&str; 4] =
    ["an Integer's fill", "an integer-coded's fill", "a Float's fill", "a Short's fill, negative"];
const UNITS: [(usize, &str); 3] =
    [(0, "a unit of no byte"), (1, "a unit of one byte"), (65_535, "a unit of 65,535 bytes")];
const SAMPLE_UNITS: [&str; 2] = [
    "sample: no texts: the unit is at 314, of no byte",
    "sample: label `ab`, unit `m`: the unit is at 316, of one byte",
];
const ADDRESSES: &str = "a page and an element at eight addresses in memory";

const LABEL_BEHIND_METHODS: &str = "a product label behind several methods";
const SPACES: &str = "a raster space and a coordinate system, neither 0, that differ";
const LABELLED: &str = "a label, a description and a unit of three lengths";
const CONTINUOUS: &str = "a continuous byte above 1";
const SHORT_RANGE: &str = "a Short's minimum and maximum of two bytes, junk behind them";
const CODED_RANGE: &str = "an integer-coded element's integers and Floats, all eight different";
const NO_FLOATS: &str = "an element that is not integer-coded: no Floats";

pub fn section(run: &mut Run, random: &mut Prng) {
    for thing in [NO_TILE, TILES, NO_METADATA, METADATA, OVER_THE_EDGE, UNLIKE_SIDES, HIGH_TIME] {
        run.face.want(thing);
    }
    for thing in CHECKSUMS.iter().chain(&TYPES).chain(&[SIXTEEN, ADDRESSES]) {
        run.face.want(thing);
    }
    for name in OUTSIDE {
        run.face.want(&format!("element: {name}"));
    }
    for thing in SAMPLE_UNITS {
        run.face.want(thing);
    }
    for (_, what) in UNITS {
        for bytes in 0..4 {
            run.face.want(&unit_thing(what, bytes));
        }
    }
    for thing in [LABEL_BEHIND_METHODS, SPACES, LABELLED, CONTINUOUS] {
        run.face.want(thing);
    }
    for thing in [SHORT_RANGE, CODED_RANGE, NO_FLOATS] {
        run.face.want(thing);
    }
    sample_units(run, random);
    for (unit, _) in UNITS {
        units(run, unit, random);
    }
    for _ in 0..run.times(6000) {
        of_page(run, &random_page(random), random);
    }
    for _ in 0..run.times(300) {
        sixteen_elements(run, random);
    }
}

pub fn of_page(run: &mut Run, page: &Page, random: &mut Prng) {
    let built = build(page);
    let asked = Asked::new(&built.bytes);
    let expected = (0, numbers_of(page, &built));
    let answer = run.page(SORT, &asked);
    if answer == Some(expected) {
        note(run, page);
    } else if answer.is_some() {
        run.fault(&format!("{SORT}: {answer:x?}, expected {expected:x?}"), asked.file);
    }
    for (number, element) in page.elements.iter().enumerate() {
        let numbers = element_numbers(&built, element, number);
        let answer = run.element(SORT, &asked, number as u64);
        if answer == Some((0, numbers)) {
            note_element(run, element, number);
        } else if answer.is_some() {
            run.fault(&format!("{SORT}: {answer:x?}, expected {numbers:x?}"), asked.file);
        }
    }
    said_of_page(run, page, &built, &asked);
    lacking(run, &asked, page.elements.len() as u64, random);
    if random.one_in(8) {
        at_any_address(run, &asked, random.below(page.elements.len() + 1) as u64);
    }
}

fn said_of_page(run: &mut Run, page: &Page, built: &Built, asked: &Asked) {
    let expected = (0, numbers_said(page, built));
    let answer = run.page_said(SORT, asked);
    if answer == Some(expected) {
        note_further(run, page);
    } else if answer.is_some() {
        run.fault(&format!("{SORT}: {answer:x?}, expected {expected:x?}"), asked.file);
    }
    for (number, element) in page.elements.iter().enumerate() {
        let numbers = element_numbers_said(built, element, number);
        let answer = run.element_said(SORT, asked, number as u64);
        if answer == Some((0, numbers)) {
            note_further_element(run, element);
        } else if answer.is_some() {
            run.fault(&format!("{SORT}: {answer:x?}, expected {numbers:x?}"), asked.file);
        }
    }
}

/// The description's own account of an element.
fn element_numbers(built: &Built, element: &Element, number: usize) -> [u64; 6] {
    [
        u64::from(element.type_code),
        u64::from(fill(element)),
        built.named("element name")[number].at as u64,
        element.name.len() as u64,
        built.named("element unit length")[number].at as u64 + 2,
        element.unit.len() as u64,
    ]
}

/// And with what the page says of it.
fn element_numbers_said(built: &Built, element: &Element, number: usize) -> [u64; ELEMENT_SAID] {
    let behind = |length: &str| built.named(length)[number].at as u64 + 2;
    let bits = |at: usize, width: usize| {
        let mut four = [0; 4];
        four[..width].copy_from_slice(&element.range_and_fill[at..at + width]);
        u64::from(u32::from_le_bytes(four))
    };
    let width = element.cell_size();
    let coded = element.type_code == INTEGER_CODED;
    let first = if coded { 20 } else { 0 };
    let float = |number: usize| if coded { bits(4 * number, 4) } else { 0 };
    let further = [
        behind("element label length"),
        element.label.len() as u64,
        behind("element description length"),
        element.description.len() as u64,
        u64::from(element.continuous),
        bits(first, width),
        bits(first + 4, width),
        float(0),
        float(1),
        float(2),
        float(3),
        float(4),
    ];
    let numbers = [&element_numbers(built, element, number)[..], &further].concat();
    numbers.try_into().expect("eighteen numbers")
}

/// And of a page.
fn numbers_of(page: &Page, built: &Built) -> [u64; 13] {
    let tile_bytes: usize = (0..page.elements.len()).map(|e| page.uncompressed_size(e)).sum();
    [
        u64::from(page.grid_rows),
        u64::from(page.grid_columns),
        u64::from(page.tile_rows),
        u64::from(page.tile_columns),
        page.tiles_down() as u64,
        page.tiles_across() as u64,
        page.elements.len() as u64,
        tile_bytes as u64,
        built.starts[0] as u64,
        page.of_type(chain::TILE).len() as u64,
        page.of_type(chain::METADATA).len() as u64,
        page.time_modified,
        u64::from(page.checksums),
    ]
}

/// And with what it says of itself.
fn numbers_said(page: &Page, built: &Built) -> [u64; PAGE_SAID] {
    let further = [
        built.only("product label length").at as u64 + 2,
        page.label.len() as u64,
        built.only("UUID").at as u64,
        page.methods.len() as u64,
        u64::from(page.raster_space),
        u64::from(page.coordinate_system),
        built.named("coordinate")[0].at as u64,
        8 * page.coordinates.len() as u64,
    ];
    let numbers = [&numbers_of(page, built)[..], &further].concat();
    numbers.try_into().expect("twenty-one numbers")
}

fn note(run: &mut Run, page: &Page) {
    let count = |record_type| page.of_type(record_type).len();
    let (tiles, metadata) = (count(chain::TILE), count(chain::METADATA));
    let mut sides = [page.grid_rows, page.grid_columns, page.tile_rows, page.tile_columns];
    sides.sort_unstable();
    let differ = sides.windows(2).all(|two| two[0] != two[1]);
    let over = |grid: u32, tile: u32| grid % tile != 0;
    let true_of_it = [
        (NO_TILE, tiles == 0),
        (TILES, tiles > 1),
        (NO_METADATA, metadata == 0),
        (METADATA, metadata > 1),
        (CHECKSUMS[usize::from(page.checksums)], true),
        (
            OVER_THE_EDGE,
            over(page.grid_rows, page.tile_rows) && over(page.grid_columns, page.tile_columns),
        ),
        (UNLIKE_SIDES, differ && page.tiles_down() > page.tiles_across()),
        (HIGH_TIME, page.time_modified >> 63 == 1),
    ];
    for (thing, _) in true_of_it.iter().filter(|(_, holds)| *holds) {
        run.face.reached(thing);
    }
}

fn note_further(run: &mut Run, page: &Page) {
    let [raster_space, coordinate_system] = [page.raster_space, page.coordinate_system];
    let differ = raster_space != coordinate_system;
    if page.methods.len() > 1 && !page.label.is_empty() {
        run.face.reached(LABEL_BEHIND_METHODS);
    }
    if raster_space != 0 && coordinate_system != 0 && differ {
        run.face.reached(SPACES);
    }
}

fn note_element(run: &mut Run, element: &Element, number: usize) {
    let type_code = usize::from(element.type_code);
    if type_code < 3 || fill(element) > 0x7fff {
        run.face.reached(TYPES[type_code]);
    }
    if number == 15 {
        run.face.reached(SIXTEEN);
    }
    if let Some((_, what)) = UNITS.iter().find(|(unit, _)| *unit == element.unit.len()) {
        run.face.reached(&unit_thing(what, element.name.len() % 4));
    }
}

fn note_further_element(run: &mut Run, element: &Element) {
    let all_differ = |mut numbers: Vec<&[u8]>| {
        let count = numbers.len();
        numbers.sort_unstable();
        numbers.dedup();
        numbers.len() == count
    };
    let Element { type_code, range_and_fill: block, .. } = element;
    let [label, description, unit] =
        [&element.label, &element.description, &element.unit].map(Vec::len);
    let lengths_differ = label != description && description != unit && unit != label;
    let junk = |at: usize| block[at..at + 2] != [0, 0];
    let true_of_it = [
        (LABELLED, label * description * unit != 0 && lengths_differ),
        (CONTINUOUS, element.continuous > 1),
        (SHORT_RANGE, *type_code == SHORT && junk(2) && junk(6)),
        (CODED_RANGE, *type_code == INTEGER_CODED && all_differ(block.chunks(4).collect())),
        (NO_FLOATS, *type_code != INTEGER_CODED && junk(0)),
    ];
    for (thing, _) in true_of_it.iter().filter(|(_, holds)| *holds) {
        run.face.reached(thing);
    }
}

fn unit_thing(what: &str, bytes: usize) -> String {
    format!("{what}, behind a name of 4n + {bytes} bytes")
}

/// Two elements of each type with units of this length, behind names of every length and other
/// texts.
fn units(run: &mut Run, unit: usize, random: &mut Prng) {
    let step = if run.small { 7 } else { 1 };
    for length in (1..=32).step_by(step) {
        let mut page = Page::of_sides([1, 1], [1, 1]);
        let names = [vec![b'n'; length], vec![b'm'; 33 - length]];
        page.elements = names.map(|name| Element::new(random.below(4) as u8, &name)).to_vec();
        for element in &mut page.elements {
            element.label = text_of(random.below(6), random);
            element.description = text_of(random.below(6), random);
            element.unit = text_of(unit, random);
        }
        of_page(run, &page, random);
    }
}

/// Req 10's: one Short named `e0`.
fn sample_units(run: &mut Run, random: &mut Prng) {
    let mut page = Page::of_sides([1, 1], [1, 1]);
    page.elements = vec![Element::new(SHORT, b"e0")];
    let sums = [("", "", [314, 0]), ("ab", "m", [316, 1])];
    for ((label, unit, [place, length]), thing) in sums.into_iter().zip(SAMPLE_UNITS) {
        page.elements[0].label = label.into();
        page.elements[0].unit = unit.into();
        of_page(run, &page, random);
        let file = build(&page).bytes;
        if run.element(SORT, &Asked::new(&file), 0) == Some((0, [3, 0, 294, 2, place, length])) {
            run.face.reached(thing);
        }
    }
}

fn lacking(run: &mut Run, asked: &Asked, elements: u64, random: &mut Prng) {
    let name = random.pick(&OUTSIDE);
    let good = random.long() % elements;
    let answer = run.element(ELEMENT_SORT, asked, outside(name, elements, good));
    if answer == Some((10, [0; 6])) {
        run.face.reached(&format!("element: {name}"));
    } else if answer.is_some() {
        run.fault(&format!("{ELEMENT_SORT}: {name}: {answer:?}"), asked.file);
    }
    let answer = run.element_said(ELEMENT_SORT, asked, outside(name, elements, good));
    if answer.is_some_and(|answer| answer != (10, [0; ELEMENT_SAID])) {
        run.fault(&format!("{ELEMENT_SORT}: {name}: {answer:?}"), asked.file);
    }
}

fn sixteen_elements(run: &mut Run, random: &mut Prng) {
    let mut page = random_page(random);
    page.records.retain(|record: &Record| record.record_type() == chain::TILE_DIRECTORY);
    [page.tile_rows, page.tile_columns] = [1, 1];
    [page.grid_rows, page.grid_columns] = [3, 2];
    page.list_whole_grid();
    let names = (b'a'..=b'p').map(|letter| vec![letter; random.between(1, 32)]).collect::<Vec<_>>();
    let described = page.elements[0].clone();
    page.elements = names.iter().map(|name| Element::new(random.below(4) as u8, name)).collect();
    for element in &mut page.elements {
        element.range_and_fill = random.bytes(element.range_and_fill.len());
        element.label.clone_from(&described.label);
        element.unit.clone_from(&described.unit);
    }
    of_page(run, &page, random);
}

/// The answers do not depend on where the file lies in memory, nor on what surrounds it.
fn at_any_address(run: &mut Run, asked: &Asked, element: u64) {
    let (page, of_element) = (asked.checked.page(), asked.checked.element(element));
    let said = (asked.checked.page_said(), asked.checked.element_said(element));
    let same = (0..8).all(|before| {
        let mut memory = vec![0xff; before];
        memory.extend(asked.file);
        memory.extend([0xff; 16]);
        let moved = &memory[before..before + asked.file.len()];
        let (mut numbers, mut element_numbers) = ([0; 13], [0; 6]);
        let number = page_into(moved, &mut numbers);
        let element_number = element_into(moved, element, &mut element_numbers);
        let (mut numbers_said, mut element_said) = ([0; PAGE_SAID], [0; ELEMENT_SAID]);
        let page_said = (page_said_into(moved, &mut numbers_said), numbers_said);
        let number_said = element_said_into(moved, element, &mut element_said);
        (number, numbers) == page
            && (element_number, element_numbers) == of_element
            && (page_said, (number_said, element_said)) == said
    });
    if same {
        run.face.reached(ADDRESSES);
    } else {
        run.fault("a page or an element: another answer at another address", asked.file);
    }
}
