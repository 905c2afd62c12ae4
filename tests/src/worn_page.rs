//! Descriptions at random of files to correct: with free records in every place, and directories of
//! every form; and of pages that are open for writing.

use crate::page::{Body, Page, TileDirectory};
use crate::prng::Prng;
use crate::random_page::{put_anywhere, random_page};
use crate::second::chain;

/// Tiles and bytes of a tile of most of them.
const MOST_TILES: usize = 200;
const MOST_TILE_BYTES: usize = 1024;

/// A file that the check accepts. Of each tile record the elements are all uncompressed, or any of
/// them compressed; free records are often such as a tile's record just fits into or just not, and
/// often adjoin each other or a record that is going to be freed.
pub fn worn_page(random: &mut Prng) -> Page {
    let mut page = small_page(random);
    directory_form(&mut page, random);
    uncompressed_tiles(&mut page, random);
    more_free_records(&mut page, random);
    list_free_records(&mut page, random);
    page
}

/// A page open for writing (Req 03, reading 18).
pub fn open_worn_page(random: &mut Prng) -> Page {
    let mut page = worn_page(random);
    while let Some(number) = page.of_type(chain::FILE_SPACE_DIRECTORY).first() {
        page.remove(*number);
    }
    while let Some(number) = second_of_two_free(&page) {
        page.remove(number);
    }
    page.list_whole_grid();
    page.time_opened = time(random);
    page
}

/// Any number but zero, often with one bit, with one byte or with all.
pub fn time(random: &mut Prng) -> u64 {
    match random.below(5) {
        0 => 1 << random.below(64),
        1 => (random.between(1, 255) as u64) << (8 * random.below(8)),
        2 => u64::MAX,
        _ => random.long().max(1),
    }
}

/// The length of a tile's record where every element is uncompressed.
pub fn tile_record_length(page: &Page) -> usize {
    let sizes = (0..page.elements.len()).map(|element| page.uncompressed_size(element));
    let sections: usize = sizes.map(|size| 4 + size.next_multiple_of(4)).sum();
    (12 + sections + 4).next_multiple_of(8)
}

fn small_page(random: &mut Prng) -> Page {
    loop {
        let page = random_page(random);
        let sizes = (0..page.elements.len()).map(|element| page.uncompressed_size(element));
        let small = page.tile_count() <= MOST_TILES && sizes.sum::<usize>() <= MOST_TILE_BYTES;
        if small || random.one_in(200) {
            return page;
        }
    }
}

/// The rectangle of the page as it is, the whole grid in either form, or no tile at all.
fn directory_form(page: &mut Page, random: &mut Prng) {
    match random.below(6) {
        0 => page.list_whole_grid(),
        1 => {
            page.list_whole_grid();
            let standard = u8::from(random.one_in(2));
            set_directory(page, |directory| directory.standard = standard);
        }
        2 => {
            while let Some(number) = page.of_type(chain::TILE).first() {
                page.remove(*number);
            }
            set_directory(page, |directory| (directory.rows, directory.columns) = (0, 0));
        }
        _ => (),
    }
}

fn set_directory(page: &mut Page, set: impl Fn(&mut TileDirectory)) {
    for record in &mut page.records {
        if let Body::TileDirectory(directory) = &mut record.body {
            set(directory);
        }
    }
}

/// Half of the tile records get every element whole.
fn uncompressed_tiles(page: &mut Page, random: &mut Prng) {
    let sizes: Vec<usize> = (0..page.elements.len()).map(|e| page.uncompressed_size(e)).collect();
    for record in &mut page.records {
        if let Body::Tile(tile) = &mut record.body {
            if random.one_in(2) {
                tile.contents = sizes.iter().map(|size| random.bytes(*size)).collect();
            }
        }
    }
}

/// Lengths next to that of a tile's record, and any; up to three in a row; some on both sides of a
/// record that a call may free.
fn more_free_records(page: &mut Page, random: &mut Prng) {
    let tile = tile_record_length(page);
    let near = [tile - 8, tile, tile + 8, tile + 16, tile + 24, 2 * tile, 2 * tile + 16];
    let length = |random: &mut Prng| match random.below(4) {
        0 => 8 * random.between(2, 6),
        _ => random.pick(&near).max(16),
    };
    for _ in 0..random.below(4) {
        let at = random.between(0, page.records.len());
        for _ in 0..random.between(1, 3) {
            page.insert(at, Body::Free(length(random)));
        }
    }
    let freed = [chain::TILE, chain::TILE_DIRECTORY, chain::FILE_SPACE_DIRECTORY];
    for record_type in freed {
        if let Some(number) = random.pick_any(&page.of_type(record_type)) {
            let sides = random.below(4);
            if sides & 1 == 1 {
                page.insert(number + 1, Body::Free(length(random)));
            }
            if sides & 2 == 2 {
                page.insert(number, Body::Free(length(random)));
            }
        }
    }
}

/// A directory of all free records in any order, if there is one.
fn list_free_records(page: &mut Page, random: &mut Prng) {
    let has_directory = !page.of_type(chain::FILE_SPACE_DIRECTORY).is_empty();
    if !has_directory && !page.of_type(chain::FREE).is_empty() {
        put_anywhere(page, Body::FileSpaceDirectory(Vec::new()), random);
    }
    let mut free = page.of_type(chain::FREE);
    random.shuffle(&mut free);
    for record in &mut page.records {
        if let Body::FileSpaceDirectory(listed) = &mut record.body {
            listed.clone_from(&free);
        }
    }
}

/// The number of a free record behind another.
fn second_of_two_free(page: &Page) -> Option<usize> {
    let is_free = |number: usize| page.records[number].record_type() == chain::FREE;
    (1..page.records.len()).find(|number| is_free(*number) && is_free(number - 1))
}
