//! Lay-downs at the house ceilings. The ceiling of the file itself is allowed.

use gvrs_tests::page::{Element, Page, INTEGER, SHORT};
use gvrs_tests::prng::Prng;

use super::draft::{directory_length, record_length, Draft};
use super::read_back::{done, laid_as_built};
use crate::run::Run;

const SORT: &str = "pages at the ceilings";

const FILE_CEILING: usize = 16_777_216;

const LARGE_TILES: &str = "a file of 16,777,216 bytes: tiles of 1,048,576 bytes";
const MANY_TILES: &str = "a file of 16,777,216 bytes: very many tile records";
const LONG_FRONT: &str = "a file of 16,777,216 bytes: a long front, no tile";
const BELOW: &str = "a file of 16,777,208 bytes";
const ABOVE: &str = "4: a file of 16,777,224 bytes";
const ONE_TILE_MORE: &str = "4: one tile more than the file can take";
const ABOVE_AND_SHORT: &str = "4: a file above the ceiling, and no buffer at all";
const SHORT_BY_ONE: &str = "13: a file of 16,777,216 bytes, one byte of room short";
const FRONT_AT_CEILING: &str = "4: a front of 16,777,216 bytes, which passes stages 1 to 4";
const FRONT_AND_INPUT: &str = "12: a front of 16,777,216 bytes, and the time is zero";
const FRONT_ABOVE: &str = "4: a front of 16,777,224 bytes, though the time is zero";
const ALL_TILES: &str = "65,536 tiles, all listed";
const LONGEST_SIDES: &str = "a grid of 65,536 by 65,536, its first and last tile listed";

pub fn section(run: &mut Run, random: &mut Prng) {
    for thing in [LARGE_TILES, MANY_TILES, LONG_FRONT, BELOW, ABOVE, ONE_TILE_MORE] {
        run.lay_downs.want(thing);
    }
    for thing in [ABOVE_AND_SHORT, SHORT_BY_ONE, FRONT_AT_CEILING, FRONT_AND_INPUT, FRONT_ABOVE] {
        run.lay_downs.want(thing);
    }
    for thing in [ALL_TILES, LONGEST_SIDES] {
        run.lay_downs.want(thing);
    }
    large_tiles(run, random);
    many_tiles(run, random);
    long_front(run, random);
    all_tiles(run, random);
    longest_sides(run, random);
}

fn laid(run: &mut Run, draft: &Draft, thing: &str, random: &mut Prng) {
    if done(run, SORT, draft, 0, random) {
        run.lay_downs.reached(thing);
    }
}

fn refused(run: &mut Run, draft: &Draft, room: usize, number: u32, thing: &str) {
    if run.refused(SORT, thing, (&draft.given, room), number) {
        run.lay_downs.reached(thing);
    }
}

/// Makes the front longer by so many bytes, a multiple of 8: with names of compression methods of
/// 65,534 bytes, which take 65,536, and for the rest with the product label.
fn lengthen(page: &mut Page, more: usize) {
    assert!(more.is_multiple_of(8) && page.label.is_empty(), "lengths of records, no label yet");
    page.methods.extend(vec![vec![b'm'; 65_534]; more / 65_536]);
    page.label = vec![b'l'; more % 65_536];
}

/// A draft whose file has this length, by a longer front. The page has no label.
fn of_length(page: &Page, indexes: &[u32], length: usize, random: &mut Prng) -> Draft {
    let front = Draft::new(page.clone(), Vec::new(), random).given.front.len();
    let records = indexes.len() * record_length(page);
    let more = length - front - records - directory_length(page);
    let mut page = page.clone();
    lengthen(&mut page, more);
    let draft = Draft::new(page, indexes.to_vec(), random);
    assert_eq!(draft.file_length(), length);
    draft
}

/// At the ceiling, beside it, and one tile more.
fn at_the_ceiling(run: &mut Run, page: &Page, indexes: &[u32], thing: &str, random: &mut Prng) {
    let draft = of_length(page, indexes, FILE_CEILING, random);
    laid(run, &draft, thing, random);
    refused(run, &draft, FILE_CEILING - 1, 13, SHORT_BY_ONE);
    let below = of_length(page, indexes, FILE_CEILING - 8, random);
    if laid_as_built(run, SORT, &below, 0).is_some() {
        run.lay_downs.reached(BELOW);
    }
    let above = of_length(page, indexes, FILE_CEILING + 8, random);
    refused(run, &above, FILE_CEILING + 8, 4, ABOVE);
    refused(run, &above, 0, 4, ABOVE_AND_SHORT);
    let one_more: Vec<u32> = (0..=indexes.len() as u32).collect();
    let draft = Draft::new(draft.page, one_more, random);
    refused(run, &draft, draft.file_length(), 4, ONE_TILE_MORE);
}

/// 15 of 16 tiles.
fn large_tiles(run: &mut Run, random: &mut Prng) {
    let page = Page::of_sides([4096, 1024], [4096, 64]);
    let indexes: Vec<u32> = (0..15).collect();
    at_the_ceiling(run, &page, &indexes, LARGE_TILES, random);
}

/// Of 65,536 tiles as many as there is room for, of 16 elements.
fn many_tiles(run: &mut Run, random: &mut Prng) {
    let mut page = Page::of_sides([256, 1280], [1, 5]);
    let types = [INTEGER, SHORT];
    let element = |number: u8| Element::new(types[usize::from(number) % 2], &[b'a' + number]);
    page.elements = (0..16).map(element).collect();
    page.checksums = false;
    let front = Draft::new(page.clone(), Vec::new(), random).given.front.len();
    let room = FILE_CEILING - 8 - front - directory_length(&page);
    let indexes: Vec<u32> = (0..(room / record_length(&page)) as u32).collect();
    at_the_ceiling(run, &page, &indexes, MANY_TILES, random);
}

fn long_front(run: &mut Run, random: &mut Prng) {
    let page = Page::plain();
    let draft = of_length(&page, &[], FILE_CEILING, random);
    laid(run, &draft, LONG_FRONT, random);
    let room = FILE_CEILING + 100;
    let directory = directory_length(&page);
    let mut draft = of_length(&page, &[], FILE_CEILING + directory, random);
    refused(run, &draft, room, 4, FRONT_AT_CEILING);
    draft.given.time = 0;
    refused(run, &draft, room, 12, FRONT_AND_INPUT);
    let mut draft = of_length(&page, &[], FILE_CEILING + directory + 8, random);
    draft.given.time = 0;
    refused(run, &draft, room, 4, FRONT_ABOVE);
}

fn all_tiles(run: &mut Run, random: &mut Prng) {
    for grid in [[256, 256], [1, 65_536], [65_536, 1]] {
        let mut page = Page::of_sides(grid, [1, 1]);
        page.elements = vec![Element::new(SHORT, b"z")];
        let draft = Draft::of_all_tiles(page, random);
        laid(run, &draft, ALL_TILES, random);
    }
}

fn longest_sides(run: &mut Run, random: &mut Prng) {
    let mut page = Page::of_sides([65_536, 65_536], [256, 256]);
    page.elements = vec![Element::new(SHORT, b"z")];
    let draft = Draft::new(page, vec![0, 65_535], random);
    laid(run, &draft, LONGEST_SIDES, random);
}
