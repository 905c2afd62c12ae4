//! Files of 65,536 bytes, of one less and of one more.

use gvrs_tests::build::bytes_of;
use gvrs_tests::page::{Body, Page, Tile};
use gvrs_tests::prng::Prng;

use crate::run::Run;

const SORT: &str = "at the longest length listed";

const LONGEST: usize = 65_536;
const TOO_LONG: &str = "too long\n";
const LISTED: &str = "exactly 65,536 bytes: listed";
const REFUSED: &str = "exactly 65,536 bytes: refused as the check says";
const ONE_LESS: &str = "65,535 bytes: refused as the check says";
const ONE_MORE: &str = "65,537 bytes: too long";
const ACCEPTED: &str = "too long, though the check accepts it";
const BEFORE_THE_CHECK: &str = "too long, though the check refuses it";

pub fn section(run: &mut Run, random: &mut Prng) {
    for thing in [LISTED, REFUSED, ONE_LESS, ONE_MORE, ACCEPTED, BEFORE_THE_CHECK] {
        run.listings.want(thing);
    }
    let good = page_of_length(LONGEST, random);
    run.listing_is(SORT, LISTED, &good, "grid 4 4\ntile 2 2\nelements 1\nwritten 2 of 4\n1\n3\n");
    let mut file = good.clone();
    file[13] = 5;
    run.listing_is(SORT, REFUSED, &file, "refused 2 at 0\n");
    run.listing_is(SORT, REFUSED, &vec![0; LONGEST], "refused 1 at 0\n");
    let last_record = LONGEST - 40;
    let text = format!("refused 6 at {last_record}\n");
    run.listing_is(SORT, ONE_LESS, &good[..LONGEST - 1], &text);
    for behind in [0, 1, 255] {
        let mut file = good.clone();
        file.push(behind);
        run.listing_is(SORT, ONE_MORE, &file, TOO_LONG);
        file[0] ^= 1;
        run.listing_is(SORT, ONE_MORE, &file, TOO_LONG);
    }
    for more in [8, 16, 4096, 65_536, 1 << 20] {
        let mut file = page_of_length(LONGEST + more, random);
        run.expect("too long to list", "a longer page", &file, (0, 0));
        run.listing_is(SORT, ACCEPTED, &file, TOO_LONG);
        file[13] = 5;
        run.listing_is(SORT, BEFORE_THE_CHECK, &file, TOO_LONG);
        file.fill(0);
        run.listing_is(SORT, BEFORE_THE_CHECK, &file, TOO_LONG);
    }
}

/// A page of two tiles whose file is so long, by a free record. The last record has 40 bytes.
fn page_of_length(length: usize, random: &mut Prng) -> Vec<u8> {
    let mut page = Page::of_sides([4, 4], [2, 2]);
    page.insert(0, Body::Free(16));
    page.insert(0, Body::FileSpaceDirectory(vec![1]));
    for index in [3, 1] {
        let contents = vec![random.bytes(16)];
        page.insert(page.records.len(), Body::Tile(Tile { index, contents }));
    }
    page.records[1].surplus = length - bytes_of(&page).len();
    bytes_of(&page)
}
