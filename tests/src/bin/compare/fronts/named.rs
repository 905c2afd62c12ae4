//! Descriptions with one thing about them, each with its answer.

use gvrs_tests::second::front::Given;

use super::draft::{Draft, Element};
use crate::run::Run;

type Change = fn(&mut Draft);
type Cut = fn(&mut Given);

/// Refusal 12: what cannot be written down.
const CUTS: [(&str, Cut); 12] = [
    ("five numbers of a page: 12", |given| given.page.truncate(5)),
    ("no numbers of a page: 12", |given| given.page.clear()),
    ("a UUID of 15 bytes: 12", |given| given.uuid.truncate(15)),
    ("a UUID of 17 bytes: 12", |given| given.uuid.push(0)),
    ("13 numbers of an element: 12", |given| given.elements.truncate(13)),
    ("15 numbers of an element: 12", |given| given.elements.truncate(15)),
    ("a name of 65,536 bytes: 12", |given| {
        given.elements[2] += 65_535;
        given.texts.extend([b'a'; 65_535]);
    }),
    ("a label of 65,536 bytes: 12", |given| {
        given.elements[3] = 65_536;
        given.texts.extend([b'a'; 65_536]);
    }),
    ("a method's name of 65,536 bytes: 12", |given| {
        given.page.push(65_536);
        given.texts.extend([b'a'; 65_536]);
    }),
    ("a product label of 65,536 bytes: 12", |given| {
        given.page[5] = 65_536;
        given.texts.extend([b'a'; 65_536]);
    }),
    ("a byte of text too few: 12", |given| {
        given.texts.pop();
    }),
    ("a byte of text too many: 12", |given| given.texts.push(0)),
];

/// What stages 3 and 4 judge, and what they allow.
const CHANGES: [(&str, u32, Change); 33] = [
    ("no grid row: 3", 3, |draft| draft.sides[0] = 0),
    ("no tile column: 3", 3, |draft| draft.sides[3] = 0),
    ("a side of 2^31: 3 before 4", 3, |draft| draft.sides[1] = 1 << 31),
    ("a flag of 2: 3", 3, |draft| draft.flag = 2),
    ("a flag of 257, which is no 1: 3", 3, |draft| draft.flag = 257),
    ("a type code of 4: 3", 3, |draft| draft.elements[1].kind = 4),
    ("a type code of 256, which is no 0: 3", 3, |draft| draft.elements[1].kind = 256),
    ("no element: 3", 3, |draft| draft.elements.clear()),
    ("an empty name: 3", 3, |draft| draft.elements[0].name.clear()),
    ("a name that begins with a digit: 3", 3, |draft| draft.elements[0].name = b"0a".to_vec()),
    ("a name that ends in an underscore: 3", 3, |draft| draft.elements[1].name.push(b'_')),
    ("a name of 33 bytes: 3", 3, |draft| draft.elements[1].name = vec![b'a'; 33]),
    ("a name of 32 bytes", 0, |draft| draft.elements[1].name = vec![b'a'; 32]),
    ("two equal names side by side: 3", 3, |draft| draft.elements[1].name = b"e0".to_vec()),
    ("two equal names, the first and the last: 3", 3, |draft| {
        draft.elements[2].name = b"e0".to_vec()
    }),
    ("a label that is not UTF-8: 3", 3, |draft| draft.elements[0].label = vec![0xff]),
    ("a description that is not UTF-8: 3", 3, |draft| draft.elements[1].description = vec![0xc3]),
    ("a unit that is not UTF-8: 3", 3, |draft| draft.elements[2].unit = vec![0x80]),
    ("a product label that is not UTF-8: 3", 3, |draft| draft.label = vec![0xff]),
    ("a method's name that is not UTF-8", 0, |draft| draft.methods.push(vec![0xff])),
    ("a grid side of 65,536", 0, |draft| draft.sides = [65_536, 1, 1, 1]),
    ("a grid side of 65,537: 4", 4, |draft| draft.sides = [65_537, 1, 2, 1]),
    ("a tile side of 4,096", 0, |draft| draft.sides = [1, 1, 4_096, 16]),
    ("a tile side of 4,097: 4", 4, |draft| draft.sides = [1, 1, 4_097, 1]),
    ("65,536 tiles", 0, |draft| draft.sides = [256, 512, 1, 2]),
    ("65,537 tiles and more: 4", 4, |draft| draft.sides = [257, 512, 1, 2]),
    ("a tile of 1,048,576 bytes", 0, |draft| tile_of(draft, 262_144)),
    ("a tile of 1,048,580 bytes: 4", 4, |draft| tile_of(draft, 262_145)),
    ("sixteen elements", 0, |draft| draft.elements = Draft::plain(16).elements),
    ("seventeen elements: 4", 4, |draft| draft.elements = Draft::plain(17).elements),
    ("seventeen elements, the sixteenth wrong: 3", 3, |draft| wrong_of_seventeen(draft, 15)),
    ("seventeen elements, the seventeenth wrong: 4", 4, |draft| wrong_of_seventeen(draft, 16)),
    ("seventeen elements and a product label that is not UTF-8: 4", 4, |draft| {
        draft.elements = Draft::plain(17).elements;
        draft.label = vec![0xff];
    }),
];

const TOO_LONG: &str = "a front of more than 16,777,216 bytes, also where it would be 3: 12";
const LONGEST: &str = "a front of 16,777,216 bytes";
const SIXTEENTH: &str = "sixteen elements, the sixteenth with the first one's name: 3";

/// One Integer of so many cells.
fn tile_of(draft: &mut Draft, cells: u32) {
    draft.elements = vec![Element::named("a", 0)];
    let width = if cells.is_multiple_of(512) { 512 } else { 65 };
    draft.sides = [1, 1, cells / width, width];
}

fn wrong_of_seventeen(draft: &mut Draft, at: usize) {
    draft.elements = Draft::plain(17).elements;
    draft.elements[at].kind = 9;
}

pub fn section(run: &mut Run) {
    for (thing, cut) in CUTS {
        let mut given = Draft::plain(3).given();
        cut(&mut given);
        run.front_is(thing, &given, 12);
    }
    for (thing, number, change) in CHANGES {
        let mut draft = Draft::plain(3);
        change(&mut draft);
        run.front_is(thing, &draft.given(), number);
    }
    let mut draft = Draft::plain(16);
    draft.elements[15].name = draft.elements[0].name.clone();
    run.front_is(SIXTEENTH, &draft.given(), 3);
    if !run.small {
        long_fronts(run);
    }
}

/// 256 methods' names fill the front up; eight bytes of a product label are too many then.
fn long_fronts(run: &mut Run) {
    let mut draft = Draft::plain(1);
    let rest = 16_777_216 - 336 - 256 * 2;
    let name = |number| vec![b'm'; rest / 256 + usize::from(number < rest % 256)];
    draft.methods = (0..256).map(name).collect();
    run.fronts.want(LONGEST);
    let made = run.front("long fronts", &draft.given());
    if made.is_some_and(|made| made.is_ok_and(|front| front.len() == 16_777_216)) {
        run.fronts.reached(LONGEST);
    }
    draft.label = vec![b'm'; 8];
    run.front_is(TOO_LONG, &draft.given(), 12);
    draft.flag = 9;
    run.front_is(TOO_LONG, &draft.given(), 12);
}
