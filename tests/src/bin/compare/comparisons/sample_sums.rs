//! The sample sums of Req 09, in Req 10's five numbers.

use gvrs_tests::build::build;
use gvrs_tests::library::compare_into;
use gvrs_tests::page::{Body, Element, Page, Tile, SHORT};
use gvrs_tests::second::cells::{Location, Spot, NO_COMPRESSOR};
use gvrs_tests::second::compare::{Comparison, Entry, Whose, ENTRY};

use super::ask::Side;
use crate::face::sample_sums::page;
use crate::run::Run;

const SORT: &str = "sample sums of comparisons";

const FILL: u32 = 5;

/// How many numbers of the list are written where it has so many.
const LENGTHS: [(usize, usize, &str); 4] = [
    (4, 0, "a list of 4 numbers takes no entry"),
    (5, 5, "a list of 5 numbers takes 0 1 0 0 1"),
    (9, 5, "a list of 9 numbers takes one entry and leaves four numbers"),
    (10, 10, "a list of 10 numbers takes 0 1 0 0 1 and 0 2 0 1 0"),
];

pub fn section(run: &mut Run) {
    for (_, _, thing) in LENGTHS {
        run.comparisons.want(thing);
    }
    few_cells(run);
    unreadable(run);
}

fn entries(all: &[[u64; ENTRY]]) -> Comparison {
    let entry = |[row, column, element, tile, inside]: [u64; ENTRY]| Entry {
        spot: Spot { row, column, element },
        location: Location { tile, inside },
    };
    Comparison::Differing(all.iter().copied().map(entry).collect())
}

fn with_fill(mut page: Page) -> Vec<u8> {
    page.elements[0].set_range_and_fill(0, 1000, FILL);
    build(&page).bytes
}

/// Grid 2 by 3, tiles 2 by 2: (0, 2, 0) is stored 5 against fill 5.
fn few_cells(run: &mut Run) {
    let first = with_fill(page([2, 3], [2, 2], &[(0, &[1, 2, 3, 4]), (1, &[5, 9, 6, 9])]));
    let second = with_fill(page([2, 3], [2, 2], &[(0, &[1, 0, 3, 0])]));
    let other_tiles = with_fill(page([2, 3], [2, 3], &[(0, &[1, 0, 5, 3, 0, 5])]));
    let [first, second, other_tiles] =
        [&first, &second, &other_tiles].map(|file| Side::new(file, NO_COMPRESSOR, 1));
    let four = entries(&[[0, 1, 0, 0, 1], [0, 2, 0, 1, 0], [1, 1, 0, 0, 3], [1, 2, 0, 1, 2]]);
    let unlike = Comparison::Refused(Whose::Neither, (12, 0));
    run.comparison_is(SORT, &first, &second, &four);
    run.comparison_is(SORT, &second, &first, &four);
    run.comparison_is(SORT, &first, &first, &entries(&[]));
    run.comparison_is(SORT, &second, &second, &entries(&[]));
    run.comparison_is(SORT, &first, &other_tiles, &unlike);
    run.comparison_is(SORT, &other_tiles, &second, &unlike);
    for (room, taken, thing) in LENGTHS {
        let (mut list, mut out) = (vec![9; room], [u64::MAX; 2]);
        let number =
            compare_into((first.file, 256), (second.file, 256), &mut [], &mut list, &mut out);
        let wanted = [0, 1, 0, 0, 1, 0, 2, 0, 1, 0];
        let rest_stays = list[taken..].iter().all(|number| *number == 9);
        if (number, out) == (0, [4, 0]) && list[..taken] == wanted[..taken] && rest_stays {
            run.comparisons.reached(thing);
        } else {
            run.fault(&format!("{SORT}: {thing}: {number}, {out:?}, {list:?}"), first.file);
        }
    }
}

/// Two Shorts, one tile of one cell; the first: stored, compressed; the second: both compressed.
fn unreadable(run: &mut Run) {
    let mut page = Page::of_sides([1, 1], [1, 1]);
    page.elements = vec![Element::new(SHORT, b"a"), Element::new(SHORT, b"b")];
    let with = |contents: [&[u8]; 2]| {
        let mut page = page.clone();
        let contents = contents.map(<[u8]>::to_vec).to_vec();
        page.insert(0, Body::Tile(Tile { index: 0, contents }));
        build(&page)
    };
    let (first, second) = (with([&[1, 0], &[7]]), with([&[7], &[7]]));
    let start = second.starts[0] as u64;
    assert_eq!(start, first.starts[0] as u64, "one place, of either page");
    for (compressor, number) in [(NO_COMPRESSOR, 11), (8, 11), (7, 14)] {
        let side = |file| Side::new(file, compressor, 2);
        let (first, second) = (side(&first.bytes), side(&second.bytes));
        let refused = |whose| Comparison::Refused(whose, (number, start));
        run.comparison_is(SORT, &first, &second, &refused(Whose::Second));
        run.comparison_is(SORT, &second, &first, &refused(Whose::First));
        run.comparison_is(SORT, &first, &first, &refused(Whose::First));
    }
}
