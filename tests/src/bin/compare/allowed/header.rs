//! What the header may hold.

use gvrs_tests::build::{build, bytes_of};
use gvrs_tests::page::{Element, Page, FLOAT, INTEGER, INTEGER_CODED, SHORT};
use gvrs_tests::prng::Prng;
use gvrs_tests::random_page::text_of;

use super::UNDERSCORES_INSIDE;
use crate::run::Run;

const TYPES: [u8; 4] = [INTEGER, INTEGER_CODED, FLOAT, SHORT];

pub fn section(run: &mut Run, random: &mut Prng) {
    fill_outside_its_range(run);
    name_alignments(run, random);
    name_characters(run);
    near_names(run);
    printed_values(run);
    methods(run);
    long_strings(run, random);
    header_padding(run);
}

fn fill_outside_its_range(run: &mut Run) {
    const BELOW: [u32; 3] = [10, 20, 5];
    const ABOVE: [u32; 3] = [10, 20, 30];
    const REVERSED: [u32; 3] = [20, 10, 0x8000_8000];
    const NOT_A_NUMBER: [u32; 3] = [0, 0x3f80_0000, 0x7fc0_1234];
    for type_code in TYPES {
        for [minimum, maximum, fill] in [BELOW, ABOVE, REVERSED, NOT_A_NUMBER] {
            let mut page = Page::plain();
            page.elements = vec![Element::new(type_code, b"z")];
            page.elements[0].set_range_and_fill(minimum, maximum, fill);
            run.accept("a fill outside its minimum and maximum", &bytes_of(&page));
        }
    }
}

/// Names of every length, so that the block behind them lies on all four alignments, for each type.
/// Strings behind the block and a second element would be misread at any other place.
fn name_alignments(run: &mut Run, random: &mut Prng) {
    for type_code in TYPES {
        for length in 1..=32 {
            let mut page = Page::plain();
            let mut element = Element::new(type_code, &vec![b'n'; length]);
            element.range_and_fill = random.bytes(element.range_and_fill.len());
            element.label = text_of(5, random);
            element.description = text_of(6, random);
            element.unit = text_of(length % 4, random);
            page.elements = vec![element, Element::new(SHORT, b"other")];
            page.label = text_of(9, random);
            run.accept("element names of 1 to 32 bytes, each type", &bytes_of(&page));
        }
    }
}

fn accept_name(run: &mut Run, sentence: &'static str, name: &[u8]) {
    let mut page = Page::plain();
    page.elements[0].name = name.to_vec();
    run.accept(sentence, &bytes_of(&page));
}

fn name_characters(run: &mut Run) {
    for byte in (b'A'..=b'Z').chain(b'a'..=b'z') {
        accept_name(run, "a name begins with any letter", &[byte]);
    }
    let letters_and_numbers = (b'A'..=b'Z').chain(b'a'..=b'z').chain(b'0'..=b'9');
    for byte in letters_and_numbers.clone().chain([b'_']) {
        accept_name(run, "a name goes on with letters, numbers, underscores", &[b'q', byte, b'q']);
    }
    for byte in letters_and_numbers {
        accept_name(run, "a name ends with a letter or a number", &[b'q', byte]);
        accept_name(run, "a name ends so behind an underscore too", &[b'q', b'_', byte]);
    }
    for name in UNDERSCORES_INSIDE {
        accept_name(run, "a name has underscores inside", name);
    }
}

/// Names that differ in case, in a last character, or in length only.
fn near_names(run: &mut Run) {
    let long = [b'a'; 32];
    let mut other = long;
    other[31] = b'b';
    let pairs: [[&[u8]; 2]; 6] = [
        [b"Score", b"score"],
        [b"a", b"ab"],
        [b"a_1", b"a"],
        [b"a__1", b"a_1"],
        [&long, &other],
        [&long[..31], &long],
    ];
    for [one, two] in pairs {
        for names in [[one, two], [two, one]] {
            let mut page = Page::plain();
            page.elements = names.iter().map(|name| Element::new(SHORT, name)).collect();
            run.accept("names that are nearly equal", &bytes_of(&page));
        }
    }
}

fn printed_values(run: &mut Run) {
    for raster_space in 0..=2 {
        for coordinate_system in 0..=2 {
            for checksums in [true, false] {
                let mut page = Page::plain();
                page.raster_space = raster_space;
                page.coordinate_system = coordinate_system;
                page.checksums = checksums;
                run.accept("every printed value of a flag", &bytes_of(&page));
            }
        }
    }
    for time in [0, 1, 1 << 63, u64::MAX] {
        let mut page = Page::plain();
        page.time_modified = time;
        run.accept("time modified is anything", &bytes_of(&page));
    }
}

fn methods(run: &mut Run) {
    let lists: [Vec<Vec<u8>>; 8] = [
        vec![b"GvrsHuffman".to_vec(), b"GvrsDeflate".to_vec()],
        vec![Vec::new()],
        vec![b"9 not an identifier".to_vec()],
        vec![b"gvrs_".to_vec()],
        vec![vec![0xff; 33]],
        vec![b"same".to_vec(), b"same".to_vec()],
        vec![Vec::new(); 300],
        vec![vec![b'x'; 65_535]],
    ];
    for methods in lists {
        let mut page = Page::plain();
        page.methods = methods;
        run.accept("names of compression methods only have to fit", &bytes_of(&page));
    }
}

fn long_strings(run: &mut Run, random: &mut Prng) {
    let long = text_of(65_535, random);
    for field in 0..4 {
        let mut page = Page::plain();
        let element = &mut page.elements[0];
        match field {
            0 => element.label.clone_from(&long),
            1 => element.description.clone_from(&long),
            2 => element.unit.clone_from(&long),
            _ => page.label.clone_from(&long),
        }
        run.accept("strings of 65,535 bytes", &bytes_of(&page));
    }
}

fn header_padding(run: &mut Run) {
    let mut seen = [false; 8];
    for length in 0..16 {
        let mut page = Page::plain();
        page.label = vec![b'l'; length];
        let built = build(&page);
        let padding = built.named("padding");
        let own = padding.iter().find(|field| field.owner.is_none()).map_or(0, |field| field.width);
        seen[own] = true;
        run.accept("0 to 7 padding bytes in the header", &built.bytes);
    }
    assert_eq!(seen, [true; 8], "every number of padding bytes in the header");
}
