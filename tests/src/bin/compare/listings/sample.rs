//! Document 01's listings, as it writes them, and a buffer of every length.

use gvrs_tests::build::{build, bytes_of};
use gvrs_tests::page::{Body, Page, Tile};
use gvrs_tests::prng::Prng;

use crate::run::Run;

const SORT: &str = "sample listing";

const PAGE: &str = "sample: a 3 by 3 grid with 2 by 2 tiles, tile 2 alone stored";
const VERSION: &str = "sample: a wrong version gives `refused 2 at 0`";
const EMPTY: &str = "sample: an empty file gives `refused 1 at 0`";
const EVERY_LENGTH: &str = "a buffer of every length, to 8 behind the text";

pub fn section(run: &mut Run, random: &mut Prng) {
    for thing in [PAGE, VERSION, EMPTY, EVERY_LENGTH] {
        run.listings.want(thing);
    }
    let mut page = Page::of_sides([3, 3], [2, 2]);
    page.insert(0, Body::Tile(Tile { index: 2, contents: vec![random.bytes(16)] }));
    let good = bytes_of(&page);
    let text = "grid 3 3\ntile 2 2\nelements 1\nwritten 1 of 4\n2\n";
    run.listing_is(SORT, PAGE, &good, text);
    let mut other = build(&page).bytes;
    other[13] = 3;
    run.listing_is(SORT, VERSION, &other, "refused 2 at 0\n");
    run.listing_is(SORT, EMPTY, &[], "refused 1 at 0\n");
    let long = vec![0; 65_537];
    for (file, length) in [(&good, text.len()), (&other, 15), (&long, 9)] {
        let rooms: Vec<usize> = (0..=length + 8).collect();
        if run.listing_into(SORT, file, &rooms).is_some_and(|text| text.len() == length) {
            run.listings.reached(EVERY_LENGTH);
        }
    }
}
