//! Files that the check refuses, asked with a compressor; and pages at random, asked with the first
//! byte of each content.

use gvrs_tests::build::build;
use gvrs_tests::library::WALK_WITHOUT_STAGE_9;
use gvrs_tests::page::{Body, Page};
use gvrs_tests::prng::Prng;
use gvrs_tests::random_page::random_page;
use gvrs_tests::second::cells::{Cell, Cells};
use gvrs_tests::second::check::Answer;

use crate::aims;
use crate::damage::each_damaged;
use crate::reads::ask::{routes, Asked};
use crate::reads::described::Described;
use crate::run::Run;

const SORT: &str = "refused pages, with a compressor";
const PAGES_SORT: &str = "pages at random, with a compressor";

const NO_INDEX: &str = "with an index above 255 all cells are as without one";

pub fn section(run: &mut Run, random: &mut Prng) {
    run.packed.want(NO_INDEX);
    for aim in aims::all() {
        if !aim.has_long_files() {
            each_damaged(&aim, run.times(4), random, |page, file, refusal, random| {
                refused(run, page, file, refusal, random);
            });
        }
    }
    for _ in 0..run.times(3000) {
        at_random(run, &random_page(random), random);
    }
}

/// A compressor index: the first byte of a content of the page, or any.
fn index(page: &Page, random: &mut Prng) -> u32 {
    let first = |record: &gvrs_tests::page::Record| match &record.body {
        Body::Tile(tile) => tile.contents.iter().map(|content| content[0]).collect(),
        _ => Vec::new(),
    };
    let firsts: Vec<u8> = page.records.iter().flat_map(first).collect();
    random.pick_any(&firsts).map_or(0, u32::from)
}

fn refused(run: &mut Run, page: &Page, file: &[u8], refusal: Answer, random: &mut Prng) {
    let asked = Asked::new(file);
    let built = build(page);
    let described = Described::new(page, &built);
    let inside = described.at_random(random);
    let spot = described.spot(inside).expect("in the grid");
    let compressor = index(page, random);
    for route in routes(random) {
        if refusal.0 == 9 && route == WALK_WITHOUT_STAGE_9 {
            run.cell_with(SORT, &asked, spot, route, compressor);
        } else {
            let refused = Cell::Refused(refusal);
            run.cell_with_is(SORT, &asked, (spot, route), compressor, refused);
        }
    }
    let tile = described.index(inside.tile) as u64;
    for place in [(tile, spot.element), (u64::MAX, 0), (0, 1 << 63)] {
        run.unpack_is(SORT, &asked, place, compressor, &Cells::Refused(refusal));
    }
}

/// Cells and whole tiles of a page whose contents are any bytes.
fn at_random(run: &mut Run, page: &Page, random: &mut Prng) {
    let built = build(page);
    let described = Described::new(page, &built);
    let asked = Asked::new(&built.bytes);
    for _ in 0..3 {
        let inside = described.at_random(random);
        let spot = described.spot(inside).expect("in the grid");
        let tile = described.index(inside.tile) as u64;
        let fields = described.contents_of(tile as usize);
        let first = fields.map_or(0, |fields| built.bytes[fields[inside.element].at]);
        for route in routes(random) {
            run.cell_with(PAGES_SORT, &asked, spot, route, u32::from(first));
        }
        run.unpack(PAGES_SORT, &asked, (tile, spot.element), u32::from(first));
        let (route, above) = (routes(random)[random.below(4)], random.integer() | 256);
        let old = asked.meaning(spot, route);
        if run.cell_with_is(PAGES_SORT, &asked, (spot, route), above, old) {
            run.packed.reached(NO_INDEX);
        }
    }
}
