//! Refusal 8: bodies of tile and metadata records.

use gvrs_tests::build::Built;
use gvrs_tests::page::{Body, Metadata, Page, Tile};
use gvrs_tests::prng::Prng;
use gvrs_tests::second::chain;

use super::bad_names::{bad_name, BadName};
use super::bad_texts::any_bad_text;
use super::changes;
use crate::damage::{Aim, At};

pub fn aims() -> Vec<Aim> {
    let mut aims = tile_aims();
    aims.extend(content_aims());
    aims.extend(metadata_aims());
    aims.extend(metadata_name_aims());
    aims.push(Aim::description(8, "the first of two, tiles and metadata together", first_of_two));
    aims
}

// Tile records.

fn tile_aims() -> Vec<Aim> {
    vec![
        Aim::bytes(8, "a tile index is at least 0", |built, random| {
            negative(built, "tile index", random)
        }),
        Aim::bytes(8, "a tile index is below the tile count", tile_index_too_large),
        Aim::description(8, "for each element: one is missing", element_missing),
        Aim::description(8, "for each element: one too many", element_too_many),
        Aim::description(8, "a tile record that holds an index only", index_only),
        Aim::description(8, "a tile record has the least length", |page, random| {
            longer(page, chain::TILE, random)
        }),
    ]
}

fn tile_index_too_large(built: &mut Built, random: &mut Prng) -> Option<At> {
    let field = random.pick_any(&built.named("tile index"))?;
    let (down, across) = changes::tile_grid(built);
    let count = down * across;
    built.set(&field, random.pick(&[count, count + 1, 0x7fff_ffff]));
    field.owner.map(At::Record)
}

fn negative(built: &mut Built, name: &str, random: &mut Prng) -> Option<At> {
    changes::negative(built, name, random)?.owner.map(At::Record)
}

/// A tile record of the page, by number.
fn any_tile<'a>(page: &'a mut Page, random: &mut Prng) -> Option<(usize, &'a mut Tile)> {
    let number = random.pick_any(&page.of_type(chain::TILE))?;
    match &mut page.records[number].body {
        Body::Tile(tile) => Some((number, tile)),
        _ => None,
    }
}

fn element_missing(page: &mut Page, random: &mut Prng) -> Option<At> {
    let (number, tile) = any_tile(page, random)?;
    if tile.contents.len() < 2 {
        return None;
    }
    tile.contents.pop();
    Some(At::Record(number))
}

fn element_too_many(page: &mut Page, random: &mut Prng) -> Option<At> {
    let content = random.bytes(4);
    let (number, tile) = any_tile(page, random)?;
    tile.contents.push(content);
    Some(At::Record(number))
}

fn index_only(page: &mut Page, random: &mut Prng) -> Option<At> {
    let (number, tile) = any_tile(page, random)?;
    tile.contents.clear();
    Some(At::Record(number))
}

/// Eight bytes or more beyond the least length.
fn longer(page: &mut Page, record_type: u8, random: &mut Prng) -> Option<At> {
    let number = random.pick_any(&page.of_type(record_type))?;
    page.records[number].surplus = 8 * random.between(1, 3);
    Some(At::Record(number))
}

// L and its bytes.

fn content_aims() -> Vec<Aim> {
    vec![
        Aim::description(8, "L is at least 1", |page, random| set_content(page, random, |_| 0)),
        Aim::description(8, "L is at most U: U + 1", |page, random| {
            set_content(page, random, |uncompressed| uncompressed + 1)
        }),
        Aim::description(8, "L is at most U: U + 8", |page, random| {
            set_content(page, random, |uncompressed| uncompressed + 8)
        }),
        Aim::description(8, "L does not count the padding", padding_counted),
        Aim::description(8, "U is times 2 for Short", short_of_four_bytes),
        Aim::bytes(8, "L is not negative", |built, random| {
            negative(built, "content length", random)
        }),
        Aim::description(8, "L bytes and padding fit the record", content_past_the_end),
        Aim::bytes(8, "the least length: L one word shorter", content_one_word_shorter),
    ]
}

/// Gives one element so many bytes, by its U.
fn set_content(page: &mut Page, random: &mut Prng, length: fn(usize) -> usize) -> Option<At> {
    let element = random.below(page.elements.len());
    let uncompressed = page.uncompressed_size(element);
    if uncompressed > 4096 {
        return None;
    }
    let (number, tile) = any_tile(page, random)?;
    tile.contents[element] = vec![7; length(uncompressed)];
    Some(At::Record(number))
}

/// A Short element of an odd number of cells, with L the multiple of 4 above U.
fn padding_counted(page: &mut Page, random: &mut Prng) -> Option<At> {
    let uneven = |element: &usize| page.uncompressed_size(*element) % 4 == 2;
    let elements: Vec<usize> = (0..page.elements.len()).filter(uneven).collect();
    let element = random.pick_any(&elements)?;
    let uncompressed = page.uncompressed_size(element);
    let (number, tile) = any_tile(page, random)?;
    tile.contents[element] = vec![7; uncompressed + 2];
    (uncompressed <= 4096).then_some(At::Record(number))
}

fn short_of_four_bytes(page: &mut Page, random: &mut Prng) -> Option<At> {
    let is_short = |element: &usize| page.elements[*element].cell_size() == 2;
    let elements: Vec<usize> = (0..page.elements.len()).filter(is_short).collect();
    let element = random.pick_any(&elements)?;
    let uncompressed = page.uncompressed_size(element);
    let (number, tile) = any_tile(page, random)?;
    tile.contents[element] = vec![7; 2 * uncompressed];
    (uncompressed <= 4096).then_some(At::Record(number))
}

/// The last element of a tile is stored with one byte, then said to have up to U, more than the
/// record holds.
fn content_past_the_end(page: &mut Page, random: &mut Prng) -> Option<At> {
    let element = page.elements.len() - 1;
    let uncompressed = page.uncompressed_size(element);
    if !(24..=4096).contains(&uncompressed) {
        return None;
    }
    let length = random.pick(&[uncompressed, uncompressed - 1]) as u32;
    let (number, tile) = any_tile(page, random)?;
    let mut content = tile.index.to_le_bytes().to_vec();
    for stored in &tile.contents[..element] {
        content.extend((stored.len() as u32).to_le_bytes());
        content.extend(stored);
        content.resize(content.len().next_multiple_of(4), 0);
    }
    content.extend(length.to_le_bytes());
    content.extend([7, 0, 0, 0]);
    page.records[number].body = Body::Raw(chain::TILE, content);
    Some(At::Record(number))
}

/// L of the only element is 8 less: still from 1 to U, but the record is 8 longer than it need be.
fn content_one_word_shorter(built: &mut Built, random: &mut Prng) -> Option<At> {
    if built.value(&built.only("element count")) != 1 {
        return None;
    }
    let field = random.pick_any(&built.named("content length"))?;
    let length = built.value(&field).checked_sub(8).filter(|length| *length > 0)?;
    built.set(&field, length);
    field.owner.map(At::Record)
}

// Metadata records.

fn metadata_aims() -> Vec<Aim> {
    vec![
        Aim::bytes(8, "a data type from 0 to 9", metadata_type),
        Aim::bytes(8, "a content length not negative", |built, random| {
            negative(built, "metadata content length", random)
        }),
        Aim::bytes(8, "metadata content fits", metadata_content_too_long),
        Aim::bytes(8, "a metadata description fits", |built, random| {
            string_too_long(built, "metadata description length", random)
        }),
        Aim::description(8, "a metadata description is UTF-8", |page, random| {
            let (number, metadata) = any_metadata(page, random)?;
            metadata.description = any_bad_text(&metadata.description, random);
            Some(At::Record(number))
        }),
        Aim::bytes(8, "a metadata name fits", |built, random| {
            string_too_long(built, "metadata name length", random)
        }),
        Aim::description(8, "the fields of Table 14: fewer bytes than they take", metadata_short),
        Aim::description(8, "a metadata record has the least length", |page, random| {
            longer(page, chain::METADATA, random)
        }),
        Aim::bytes(8, "the least length: metadata content 8 shorter", metadata_content_shorter),
    ]
}

fn metadata_type(built: &mut Built, random: &mut Prng) -> Option<At> {
    let field = random.pick_any(&built.named("metadata type"))?;
    let value = random.between(10, 255) as u64;
    built.set(&field, random.pick(&[10, value, 255]));
    field.owner.map(At::Record)
}

fn metadata_content_too_long(built: &mut Built, random: &mut Prng) -> Option<At> {
    let field = random.pick_any(&built.named("metadata content length"))?;
    let left = built.left_behind(field.at + 4, field.owner?) as u64;
    built.set(&field, random.pick(&[left + 1, left, left - 1, 0x7fff_ffff]));
    field.owner.map(At::Record)
}

fn string_too_long(built: &mut Built, name: &str, random: &mut Prng) -> Option<At> {
    let field = random.pick_any(&built.named(name))?;
    let left = built.left_behind(field.at + 2, field.owner?) as u64;
    built.set(&field, random.pick(&[left + 1, left + 5, 0xffff]));
    field.owner.map(At::Record)
}

/// A record of 16 or 24 bytes can't hold the least metadata record's 26.
fn metadata_short(page: &mut Page, random: &mut Prng) -> Option<At> {
    let number = random.pick_any(&page.of_type(chain::METADATA))?;
    let content = [1, 0, b'a', 1, 0, 0, 0, 0, 0, 0, 0, 0];
    let kept = random.pick(&[0, 4, 12]);
    page.records[number].body = Body::Raw(chain::METADATA, content[..kept].to_vec());
    Some(At::Record(number))
}

/// The description then begins in the content. Zeros make it empty.
fn metadata_content_shorter(built: &mut Built, random: &mut Prng) -> Option<At> {
    let field = random.pick_any(&built.named("metadata content length"))?;
    let length = built.value(&field).checked_sub(16)?;
    let behind = field.at + 4 + length as usize;
    built.bytes[behind..behind + 2].fill(0);
    built.set(&field, length);
    field.owner.map(At::Record)
}

// Names of metadata records.

fn metadata_name_aims() -> Vec<Aim> {
    vec![
        Aim::description(8, "a metadata name of no character", |page, random| {
            spoil_name(page, BadName::Empty, random)
        }),
        Aim::description(8, "a metadata name of more than 32 characters", |page, random| {
            spoil_name(page, BadName::TooLong, random)
        }),
        Aim::description(8, "a metadata name that begins with no letter", |page, random| {
            spoil_name(page, BadName::Beginning, random)
        }),
        Aim::description(8, "a metadata name with another ASCII character", |page, random| {
            spoil_name(page, BadName::Character, random)
        }),
        Aim::description(8, "a metadata name with a byte that is not ASCII", |page, random| {
            spoil_name(page, BadName::NotAscii, random)
        }),
        Aim::description(8, "a metadata name that ends in an underscore", |page, random| {
            spoil_name(page, BadName::Ending, random)
        }),
        Aim::description(8, "a metadata name of one letter and 31 underscores", |page, random| {
            spoil_name(page, BadName::Underscores, random)
        }),
        Aim::description(8, "a metadata name that is one underscore", |page, random| {
            spoil_name(page, BadName::Underscore, random)
        }),
    ]
}

fn any_metadata<'a>(page: &'a mut Page, random: &mut Prng) -> Option<(usize, &'a mut Metadata)> {
    let number = random.pick_any(&page.of_type(chain::METADATA))?;
    match &mut page.records[number].body {
        Body::Metadata(metadata) => Some((number, metadata)),
        _ => None,
    }
}

/// The record's name, and with it the name in its directory entry.
fn spoil_name(page: &mut Page, bad: BadName, random: &mut Prng) -> Option<At> {
    let (number, metadata) = any_metadata(page, random)?;
    metadata.name = bad_name(bad, &metadata.name, random);
    Some(At::Record(number))
}

// Order.

/// One tile record and one metadata record are bad; the place is that of the one that comes first.
fn first_of_two(page: &mut Page, random: &mut Prng) -> Option<At> {
    let (tile_number, tile) = any_tile(page, random)?;
    tile.contents.clear();
    let (metadata_number, metadata) = any_metadata(page, random)?;
    metadata.data_type = 10;
    Some(At::Record(tile_number.min(metadata_number)))
}
