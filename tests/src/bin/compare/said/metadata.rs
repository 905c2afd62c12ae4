//! Metadata records: before, between and behind the tiles, in any order of their directory; and found
//! by names and IDs that are hard to tell apart.

use gvrs_tests::build::build;
use gvrs_tests::keys::{alike, alike_reversed, page_of, Key};
use gvrs_tests::page::{Body, Metadata, Page, Tile};
use gvrs_tests::prng::Prng;
use gvrs_tests::random_page::text_of;
use gvrs_tests::second::chain;
use gvrs_tests::second::elements::{ABSENT, FOUND};

use super::made::{metadata_of, of_page};
use crate::reads::ask::Asked;
use crate::run::Run;

const SORT: &str = "metadata before, between and behind tiles";
const KEY_SORT: &str = "metadata records that are hard to tell apart";

const PLACES: [&str; 3] =
    ["metadata before the tiles", "metadata between the tiles", "metadata behind the tiles"];
const OTHER_ORDER: &str = "a metadata directory in another order than the file's";
const TYPES: &str = "every data type, contents and descriptions of 0 to 9 bytes";
const CROSSED: &str = "each name with each ID: found where a record has both, else 33";
const HIGH_ID: &str = "a record ID of 2^31 or more, unsigned";

/// IDs whose bits a comparison of fewer would mix up.
const IDS: [u32; 10] = [0, 1, 255, 256, 257, 0xffff, 0x1_0000, i32::MAX as u32, 1 << 31, u32::MAX];

pub fn section(run: &mut Run, random: &mut Prng) {
    for thing in PLACES.into_iter().chain([OTHER_ORDER, TYPES, CROSSED, HIGH_ID]) {
        run.said.want(thing);
    }
    let mut seen = Seen { types: [false; 10], lengths: [[false; 10]; 2] };
    for _ in 0..run.times(300) {
        placed(run, &mut seen, random);
    }
    if seen.all() {
        run.said.reached(TYPES);
    }
    for round in 0..run.times(12) {
        crossed(run, round, random);
    }
}

/// The data types that came about, and the lengths of contents and descriptions.
struct Seen {
    types: [bool; 10],
    lengths: [[bool; 10]; 2],
}

impl Seen {
    fn note(&mut self, metadata: &Metadata) {
        self.types[usize::from(metadata.data_type)] = true;
        self.lengths[0][metadata.content.len()] = true;
        self.lengths[1][metadata.description.len()] = true;
    }

    fn all(&self) -> bool {
        self.types == [true; 10] && self.lengths == [[true; 10]; 2]
    }
}

/// Three tiles and up to six metadata records anywhere among them.
fn placed(run: &mut Run, seen: &mut Seen, random: &mut Prng) {
    let mut page = Page::of_sides([2, 2], [1, 1]);
    for index in [2, 0, 3] {
        page.insert(0, Body::Tile(Tile { index, contents: vec![random.bytes(4)] }));
    }
    let mut places = [false; 3];
    for number in 0..random.between(1, 6) {
        let [content, description] = [0, 1].map(|_| random.below(10));
        let metadata = Metadata {
            name: alike(5 + random.below(28), number),
            id: random.pick(&IDS),
            data_type: random.below(10) as u8,
            content: random.bytes(content),
            description: text_of(description, random),
        };
        let at = random.between(0, page.records.len());
        let tiles_before = page.of_type(chain::TILE).iter().filter(|tile| **tile < at).count();
        places[[0, 1, 1, 2][tiles_before]] = true;
        page.insert(at, Body::Metadata(metadata));
    }
    let in_order = page.of_type(chain::METADATA);
    let mut listed = in_order.clone();
    random.shuffle(&mut listed);
    let reordered = listed != in_order;
    page.insert(page.records.len(), Body::MetadataDirectory(listed));
    if of_page(run, SORT, &page, random) {
        metadata_of(&page).into_iter().for_each(|metadata| seen.note(metadata));
        for (thing, _) in PLACES.iter().zip(places).filter(|(_, there)| *there) {
            run.said.reached(thing);
        }
        if reordered {
            run.said.reached(OTHER_ORDER);
        }
    }
}

/// Some of all pairs of ten names and ten IDs, in any order; every pair is asked for.
fn crossed(run: &mut Run, round: usize, random: &mut Prng) {
    let length = 5 + round;
    let near = if round % 2 == 0 { alike } else { alike_reversed };
    let mut names: Vec<Vec<u8>> = (0..8).map(|number| near(length, number)).collect();
    names.push([&names[0][..], b"0"].concat());
    names.push(names[0][..length - 1].to_vec());
    let all = names.iter().flat_map(|name| IDS.map(|id| (name.clone(), id)));
    let mut keys: Vec<Key> = all.collect();
    random.shuffle(&mut keys);
    let there = random.between(1, 40);
    let mut listed: Vec<usize> = (0..there).collect();
    random.shuffle(&mut listed);
    let built = build(&page_of(&keys[..there], &listed));
    let asked = Asked::new(&built.bytes);
    let mut right = true;
    for (number, (name, id)) in keys.iter().enumerate() {
        let expected = if number < there { (FOUND, number as u64) } else { (ABSENT, 0) };
        let found = run.find_is(KEY_SORT, &asked, (name, *id), expected);
        right &= found;
        if found && number < there && id >> 31 == 1 {
            run.said.reached(HIGH_ID);
        }
    }
    if right {
        run.said.reached(CROSSED);
    }
}
