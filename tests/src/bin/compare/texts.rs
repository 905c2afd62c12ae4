//! Texts that are UTF-8 and texts that are not, in every place that a page has for one, and the
//! library's answer for a text by itself. Rust's own judge is asked beside both.

use std::str::from_utf8;

use gvrs_tests::build::{build, bytes_of, make_checksums_good, Built, Field, Role};
use gvrs_tests::library;
use gvrs_tests::page::{Body, Element, Metadata, Page, INTEGER, SHORT};
use gvrs_tests::prng::Prng;
use gvrs_tests::random_page::{random_page, text_of};
use gvrs_tests::second::chain;
use gvrs_tests::second::check::Answer;
use gvrs_tests::second::utf8::is_utf8;

use crate::aims::bad_texts::{any_bad_text, bad_text, BAD_TEXTS};
use crate::lay_downs::draft::Draft;
use crate::run::Run;

const SORT: &str = "texts";
const FRONTS: &str = "fronts with a text that is not UTF-8";

/// The sample sums of Req 06: RFC 3629, section 7; G's word; the edges of the table. Then U+0000,
/// U+FFFE, a private character, and units that are not ASCII.
const GOOD: [&[u8]; 20] = [
    b"\x41\xe2\x89\xa2\xce\x91\x2e",
    b"\xed\x95\x9c\xea\xb5\xad\xec\x96\xb4",
    b"\xe6\x97\xa5\xe6\x9c\xac\xe8\xaa\x9e",
    b"\xef\xbb\xbf\xf0\xa3\x8e\xb4",
    b"Eleva\xc3\xa7\xc3\xa3o",
    b"",
    b"\x7f",
    b"\xc2\x80",
    b"\xdf\xbf",
    b"\xe0\xa0\x80",
    b"\xed\x9f\xbf",
    b"\xee\x80\x80",
    b"\xef\xbf\xbf",
    b"\xf0\x90\x80\x80",
    b"\xf4\x8f\xbf\xbf",
    b"\x00",
    b"\xef\xbf\xbe",
    b"\xf3\xb0\x80\x80",
    b"\xc2\xb5m",
    b"\xc2\xb0C",
];

/// The sample sums of Req 06; then a unit in Latin-1.
const BAD: [&[u8]; 13] = [
    b"\x80",
    b"\xc0\x80",
    b"\xc1\xbf",
    b"\xe0\x9f\xbf",
    b"\xed\xa0\x80",
    b"\xf0\x8f\xbf\xbf",
    b"\xf4\x90\x80\x80",
    b"\xf5\x80\x80\x80",
    b"\xff",
    b"\xc3",
    b"\xe2\x82",
    b"Eleva\xe7\xe3o",
    b"\xb5m",
];

/// The bounds of the table's octets, and their neighbours.
const EDGES: [u8; 24] = [
    0x00, 0x7f, 0x80, 0x8f, 0x90, 0x9f, 0xa0, 0xbf, 0xc0, 0xc1, 0xc2, 0xdf, 0xe0, 0xe1, 0xec, 0xed,
    0xee, 0xef, 0xf0, 0xf1, 0xf3, 0xf4, 0xf5, 0xff,
];

pub fn section(run: &mut Run, random: &mut Prng) {
    run.lay_downs.want(FRONTS);
    in_every_place(run, random);
    not_judged(run);
    cut_by_its_length(run);
    of_17_elements(run);
    damaged_in_turn(run, random);
    by_themselves(run, random);
}

// Places of texts.

/// An element's texts by its number, a metadata record's by the record's.
#[derive(Clone, Copy, Debug)]
enum Place {
    Label(usize),
    Description(usize),
    Unit(usize),
    Product,
    Metadata(usize),
}

/// The first and the last element's, the product label, and each metadata record's.
fn places(page: &Page) -> Vec<Place> {
    let mut places = vec![Place::Product];
    for element in [0, page.elements.len() - 1] {
        places.extend([Place::Label(element), Place::Description(element), Place::Unit(element)]);
    }
    places.extend(page.of_type(chain::METADATA).into_iter().map(Place::Metadata));
    places
}

fn text_at(page: &mut Page, place: Place) -> &mut Vec<u8> {
    match place {
        Place::Label(element) => &mut page.elements[element].label,
        Place::Description(element) => &mut page.elements[element].description,
        Place::Unit(element) => &mut page.elements[element].unit,
        Place::Product => &mut page.label,
        Place::Metadata(number) => match &mut page.records[number].body {
            Body::Metadata(metadata) => &mut metadata.description,
            _ => panic!("record {number} is no metadata record"),
        },
    }
}

fn with_text(page: &Page, place: Place, text: &[u8]) -> Page {
    let mut page = page.clone();
    *text_at(&mut page, place) = text.to_vec();
    page
}

/// Where the text is, if no text of the page is empty.
fn field_of(built: &Built, place: Place) -> Field {
    match place {
        Place::Label(element) => built.named("element label")[element],
        Place::Description(element) => built.named("element description")[element],
        Place::Unit(element) => built.named("element unit")[element],
        Place::Product => built.only("product label"),
        Place::Metadata(number) => built.named_in("metadata description", number)[0],
    }
}

/// What a bad text there is refused with.
fn refusal(built: &Built, place: Place) -> Answer {
    match place {
        Place::Metadata(number) => (8, built.starts[number] as u64),
        _ => (3, 0),
    }
}

/// A page of three elements and two metadata records, each text of one letter.
fn small_page() -> Page {
    let mut page = Page::plain();
    let names: [&[u8]; 3] = [b"a", b"b", b"c"];
    page.elements = names.map(|name| Element::new(SHORT, name)).to_vec();
    for id in [1, 0] {
        page.insert(1, Body::Metadata(Metadata::new(b"Author", id)));
    }
    page.insert(2, Body::MetadataDirectory(vec![3, 1]));
    for element in 0..3 {
        for place in [Place::Label(element), Place::Description(element), Place::Unit(element)] {
            *text_at(&mut page, place) = b"t".to_vec();
        }
    }
    for place in [Place::Product, Place::Metadata(1), Place::Metadata(3)] {
        *text_at(&mut page, place) = b"t".to_vec();
    }
    page
}

// Files.

fn in_every_place(run: &mut Run, random: &mut Prng) {
    let page = small_page();
    for place in places(&page) {
        for text in GOOD {
            let file = bytes_of(&with_text(&page, place, text));
            run.accept("a text is UTF-8, or empty", &file);
        }
        for text in BAD {
            let page = with_text(&page, place, text);
            refused(run, &page, place);
            if !matches!(place, Place::Metadata(_)) {
                front_refused(run, page, random);
            }
        }
    }
}

fn refused(run: &mut Run, page: &Page, place: Place) {
    let built = build(page);
    let expected = refusal(&built, place);
    run.expect(SORT, &format!("not UTF-8: {place:?}"), &built.bytes, expected);
}

fn front_refused(run: &mut Run, page: Page, random: &mut Prng) {
    let draft = Draft::of_all_tiles(page, random);
    if run.refused(FRONTS, "not UTF-8", (&draft.given, draft.file_length()), 3) {
        run.lay_downs.reached(FRONTS);
    }
}

/// Names of methods, and metadata content of every data type.
fn not_judged(run: &mut Run) {
    for text in BAD {
        let mut page = small_page();
        page.methods = vec![text.to_vec(); 2];
        run.accept("a method's name need not be UTF-8", &bytes_of(&page));
        for data_type in 0..=9 {
            let mut page = small_page();
            if let Body::Metadata(metadata) = &mut page.records[1].body {
                metadata.data_type = data_type;
                metadata.content = text.to_vec();
            }
            run.accept("metadata content need not be UTF-8", &bytes_of(&page));
        }
    }
}

/// A text that ends in C3, before a byte A7 that is not its own: the low byte of the next string's
/// length, padding or reserved.
fn cut_by_its_length(run: &mut Run) {
    for place in places(&small_page()) {
        let mut page = small_page();
        match place {
            Place::Label(element) => page.elements[element].description = vec![b'd'; 0xa7],
            Place::Description(element) => page.elements[element].unit = vec![b'u'; 0xa7],
            _ => (),
        }
        let mut tried = 0;
        for before in ["Eleva", "Eleve", "Elev", "Ele", "El", "E"] {
            *text_at(&mut page, place) = [before.as_bytes(), b"\xc3"].concat();
            tried += usize::from(cut_before_a7(run, build(&page), place));
        }
        assert!(tried > 0, "a byte behind the text of {place:?} can be A7");
    }
}

/// False where the byte behind the text can't be A7.
fn cut_before_a7(run: &mut Run, mut built: Built, place: Place) -> bool {
    let field = field_of(&built, place);
    let behind = field.at + field.width;
    let role = built.fields.iter().find(|next| next.at == behind).map(|next| next.role);
    match role {
        Some(Role::Unjudged) => built.bytes[behind] = 0xa7,
        Some(Role::Count) if built.bytes[behind] == 0xa7 => (),
        _ => return false,
    }
    make_checksums_good(&mut built.bytes);
    let expected = refusal(&built, place);
    run.expect(SORT, &format!("cut by its length: {place:?}"), &built.bytes, expected);
    true
}

/// The first 16 entries are read, neither the 17th nor what stands behind it.
fn of_17_elements(run: &mut Run) {
    let mut page = Page::plain();
    page.elements = (b'a'..b'a' + 17).map(|name| Element::new(INTEGER, &[name])).collect();
    for text in [b"\xff", b"\xc3"] {
        for element in 0..17 {
            let number = if element < 16 { 3 } else { 4 };
            for place in [Place::Label(element), Place::Description(element), Place::Unit(element)]
            {
                let file = bytes_of(&with_text(&page, place, text));
                run.expect(SORT, &format!("of 17 elements: {place:?}"), &file, (number, 0));
            }
        }
        let file = bytes_of(&with_text(&page, Place::Product, text));
        run.expect(SORT, "the product label behind 17 elements", &file, (4, 0));
    }
}

/// Every text of a page in turn, damaged in every way.
fn damaged_in_turn(run: &mut Run, random: &mut Prng) {
    for _ in 0..run.times(100) {
        let page = random_page(random);
        for place in places(&page) {
            let own = text_at(&mut page.clone(), place).clone();
            for bad in BAD_TEXTS {
                let text = bad_text(bad, &own, random);
                known(run, &text, false);
                refused(run, &with_text(&page, place, &text), place);
            }
        }
    }
}

// Texts by themselves.

impl Run {
    /// Asks both, and Rust's own judge, whether the bytes are UTF-8. They must agree.
    fn text(&mut self, text: &[u8]) -> bool {
        // An allocation of exactly the text's length, so that valgrind sees a read behind it.
        let lent: Box<[u8]> = text.into();
        let from_library = library::is_utf8(&lent);
        let from_second = is_utf8(text);
        let from_rust = from_utf8(text).is_ok();
        self.texts += 1;
        if from_library != u32::from(from_second) || from_second != from_rust {
            let answers = format!("{from_library}, second {from_second}, Rust {from_rust}");
            self.fault(&format!("a text: library {answers}"), text);
        }
        from_second
    }
}

/// As `Run::text`, where the answer is known.
fn known(run: &mut Run, text: &[u8], expected: bool) {
    if run.text(text) != expected {
        run.fault("a text: the second implementation is wrong", text);
    }
}

fn by_themselves(run: &mut Run, random: &mut Prng) {
    for (texts, expected) in [(&GOOD[..], true), (&BAD[..], false)] {
        for text in texts {
            known(run, text, expected);
        }
    }
    // Every byte and every edge, or a few of them.
    let (each_byte, each_edge) = if run.small { (50, 5) } else { (1, 1) };
    let bytes: Vec<u8> = (0..=255).step_by(each_byte).collect();
    let edges: Vec<u8> = EDGES.into_iter().step_by(each_edge).collect();
    for (bytes, length) in [(&bytes, 1), (&bytes, 2), (&edges, 3), (&edges, 4)] {
        all_of(run, bytes, length);
    }
    for _ in 0..run.times(10_000) {
        let length = random.below(40);
        at_random(run, length, random);
    }
    for length in [255, 256, 257, 65_535, 65_536, 1_000_000] {
        at_random(run, length, random);
    }
}

/// Every string of so many of these bytes.
fn all_of(run: &mut Run, bytes: &[u8], length: u32) {
    for number in 0..bytes.len().pow(length) {
        let digit = |place| bytes[number / bytes.len().pow(place) % bytes.len()];
        let text: Vec<u8> = (0..length).map(digit).collect();
        run.text(&text);
    }
}

/// A text, the same with one byte changed and damaged, edges, and any bytes.
fn at_random(run: &mut Run, length: usize, random: &mut Prng) {
    let mut text = text_of(length, random);
    known(run, &text, true);
    known(run, &any_bad_text(&text, random), false);
    if length > 0 {
        text[random.below(length)] ^= 1 << random.below(8);
        run.text(&text);
    }
    let edges: Vec<u8> = (0..length).map(|_| random.pick(&EDGES)).collect();
    run.text(&edges);
    run.text(&random.bytes(length));
}
