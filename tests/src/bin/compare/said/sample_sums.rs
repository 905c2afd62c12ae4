//! The sample sums of lists.

use gvrs_tests::build::build;
use gvrs_tests::library::list_items_into;
use gvrs_tests::page::{Body, Element, Metadata, Page, Tile, SHORT};
use gvrs_tests::second::elements::{ABSENT, FOUND};
use gvrs_tests::second::says::List;

use crate::reads::ask::Asked;
use crate::run::Run;

const SORT: &str = "sample sums of lists";

const TWO_TILES: &str = "sample: tiles 4 and 8 of 5 by 7, stored plain";
const SEVEN_NUMBERS: &str = "sample: room for 7 numbers takes one tile of two";
const SECOND: &str = "sample: from 1 on the second tile, from 2 on none";
const HUFFMAN: &str = "sample: packed by `GvrsHuffman`: mask 1, index 0, a name of 11 bytes";
const RECORD: &str = "sample: metadata record `a` with ID 1, without content and description";

pub fn section(run: &mut Run) {
    for thing in [TWO_TILES, SEVEN_NUMBERS, SECOND, HUFFMAN, RECORD] {
        run.said.want(thing);
    }
    two_tiles(run);
    huffman(run);
    record(run);
}

/// Grid 5 by 7, tiles 2 by 3.
fn two_tiles(run: &mut Run) {
    let mut page = Page::of_sides([5, 7], [2, 3]);
    page.elements = vec![Element::new(SHORT, b"z")];
    for (at, index) in [4, 8].into_iter().enumerate() {
        page.insert(at, Body::Tile(Tile { index, contents: vec![vec![1; 12]] }));
    }
    let built = build(&page);
    let asked = Asked::new(&built.bytes);
    let [first, second] = [0, 1].map(|at| built.starts[at] as u64);
    let both = [4, first, 0, 256, 8, second, 0, 256];
    if run.list_is(SORT, &asked, List::Tiles, &Ok(both.to_vec())) {
        run.said.reached(TWO_TILES);
    }
    let seven = [4, first, 0, 256, 9, 9, 9];
    if asks(run, &asked, 0, &[9; 7], &seven, [1, 2]) {
        run.said.reached(SEVEN_NUMBERS);
    }
    if asks(run, &asked, 1, &[9; 4], &both[4..], [1, 1])
        && asks(run, &asked, 2, &[9; 4], &[9; 4], [0, 0])
    {
        run.said.reached(SECOND);
    }
}

/// One call for the tiles: what `numbers` holds before and after, and `out`.
fn asks(
    run: &mut Run,
    asked: &Asked,
    from: u64,
    before: &[u64],
    after: &[u64],
    told: [u64; 2],
) -> bool {
    let (mut numbers, mut out) = (before.to_vec(), [9; 2]);
    let number = list_items_into(&asked.lent, List::Tiles, from, &mut numbers, &mut out);
    let same = (number, &numbers[..], out) == (0, after, told);
    if !same {
        let text = format!("{SORT}: from {from}: {number}, {numbers:?}, {out:?}, not {after:?}");
        run.fault(&text, asked.file);
    }
    same
}

/// A tile that is packed by method 0.
fn huffman(run: &mut Run) {
    let mut page = Page::of_sides([2, 3], [2, 3]);
    page.elements = vec![Element::new(SHORT, b"z")];
    page.methods = vec![b"GvrsHuffman".to_vec()];
    page.insert(0, Body::Tile(Tile { index: 0, contents: vec![vec![0; 11]] }));
    let built = build(&page);
    let asked = Asked::new(&built.bytes);
    let start = built.starts[0] as u64;
    let name = built.only("method name").at as u64;
    let tiles = run.list_is(SORT, &asked, List::Tiles, &Ok(vec![0, start, 1, 0]));
    if run.list_is(SORT, &asked, List::Methods, &Ok(vec![name, 11])) && tiles {
        run.said.reached(HUFFMAN);
    }
}

fn record(run: &mut Run) {
    let mut page = Page::plain();
    page.insert(0, Body::Metadata(Metadata { data_type: 7, ..Metadata::new(b"a", 1) }));
    page.insert(1, Body::MetadataDirectory(vec![0]));
    let built = build(&page);
    let asked = Asked::new(&built.bytes);
    let x = built.starts[0] as u64;
    let item = vec![x, x + 10, 1, 1, 7, x + 20, 0, x + 22, 0];
    let all = run.list_is(SORT, &asked, List::Metadata, &Ok(item))
        && run.find_is(SORT, &asked, (b"a", 1), (FOUND, 0))
        && run.find_is(SORT, &asked, (b"a", 0), (ABSENT, 0))
        && run.find_is(SORT, &asked, (b"A", 1), (ABSENT, 0));
    if all {
        run.said.reached(RECORD);
    }
}
