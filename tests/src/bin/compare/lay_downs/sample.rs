//! Document 01's sample page, byte for byte: a 3 by 3 grid with 2 by 2 tiles, one element, tile 2
//! alone stored.

use gvrs_tests::page::{Element, Page, SHORT};
use gvrs_tests::prng::Prng;
use gvrs_tests::second::fields::count_at;

use super::draft::Draft;
use super::read_back::done;
use crate::run::Run;

const SORT: &str = "sample page";

const BYTES: &str = "sample: every byte behind the front, checksums off";
const FRONT: &str = "sample: every field of the front that is set";
const LENGTHS: &str = "sample: record lengths 32, 24 and 64";

/// G Tables 15 and 16: 12 + 4 + 8 + 4 bytes and 4 of padding. The record starts at 336.
const TILE_RECORD: [u8; 32] = [
    32, 0, 0, 0, 2, 0, 0, 0, // length, type, reserved
    2, 0, 0, 0, // tile index
    8, 0, 0, 0, // L
    0x11, 0x22, 0x33, 0x44, 0x55, 0x66, 0x77, 0x88, // cells
    0, 0, 0, 0, // padding
    0, 0, 0, 0, // checksum
];

/// G Table 21. The tile record's content is at 344, which is 8 times 43. The record starts at 368.
const TILE_DIRECTORY: [u8; 56] = [
    56, 0, 0, 0, 5, 0, 0, 0, // length, type, reserved
    0, 0, 0, 0, 0, 0, 0, 0, // format, standard references, reserved
    0, 0, 0, 0, 0, 0, 0, 0, // Row0, Col0
    2, 0, 0, 0, 2, 0, 0, 0, // rows, columns
    0, 0, 0, 0, 0, 0, 0, 0, 43, 0, 0, 0, 0, 0, 0, 0, // references
    0, 0, 0, 0, // padding
    0, 0, 0, 0, // checksum
];

pub fn section(run: &mut Run, random: &mut Prng) {
    for thing in [BYTES, FRONT, LENGTHS] {
        run.lay_downs.want(thing);
    }
    three_by_three(run, random);
    record_lengths(run, random);
}

fn three_by_three(run: &mut Run, random: &mut Prng) {
    let mut page = Page::of_sides([3, 3], [2, 2]);
    page.elements = vec![Element::new(SHORT, b"z")];
    page.checksums = false;
    let mut draft = Draft::new(page, vec![2], random);
    draft.given.time = 0x0102_0304_0506_0708;
    draft.given.cells = vec![0x11, 0x22, 0x33, 0x44, 0x55, 0x66, 0x77, 0x88];
    draft.given.front[48..72].fill(0x99);
    draft.given.front[80..88].fill(0x99);
    draft.given.front[332..336].fill(0x99);
    let Some(Ok(file)) = run.lay_down(SORT, &draft.given, 424) else {
        return run.fault("the sample page is not laid down", &draft.given.front);
    };
    judge(run, BYTES, file[336..] == [&TILE_RECORD[..], &TILE_DIRECTORY].concat(), &file);
    let mut front = draft.given.front.clone();
    front[40..48].copy_from_slice(&[8, 7, 6, 5, 4, 3, 2, 1]);
    front[48..64].fill(0);
    front[64..72].fill(0);
    front[80..88].copy_from_slice(&[120, 1, 0, 0, 0, 0, 0, 0]);
    front[332..336].fill(0);
    judge(run, FRONT, file[..336] == front, &file);
    done(run, SORT, &draft, 0, random);
}

fn judge(run: &mut Run, thing: &str, good: bool, file: &[u8]) {
    if good {
        run.lay_downs.reached(thing);
    } else {
        run.fault(&format!("not so: {thing}"), file);
    }
}

/// One Short, 2 by 2; one Short, 1 by 1; two Shorts, 3 by 3.
fn record_lengths(run: &mut Run, random: &mut Prng) {
    for (elements, side, length) in [(1, 2, 32), (1, 1, 24), (2, 3, 64)] {
        let mut page = Page::of_sides([side, side], [side, side]);
        let names: [&[u8]; 2] = [b"a", b"b"];
        page.elements = names[..elements].iter().map(|name| Element::new(SHORT, name)).collect();
        let draft = Draft::of_all_tiles(page, random);
        let start = draft.given.front.len();
        if let Some(Ok(file)) = run.lay_down(SORT, &draft.given, start + length + 40) {
            let stated = count_at(&file, start) == Some(length);
            judge(run, LENGTHS, stated && file.len() == start + length + 40, &file);
        }
        done(run, SORT, &draft, 0, random);
    }
}
