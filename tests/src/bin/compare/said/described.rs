//! What a description says of the lists, from the builder's fields.

use gvrs_tests::build::{Built, Field};
use gvrs_tests::page::{Body, Page, FLOAT};
use gvrs_tests::second::says::List;

/// All items of a list, one behind the other.
pub fn items_of(page: &Page, built: &Built, list: List) -> Vec<u64> {
    match list {
        List::Tiles => tiles(page, built),
        List::Metadata => metadata(page, built),
        List::Methods => methods(page, built),
    }
}

fn tiles(page: &Page, built: &Built) -> Vec<u64> {
    let mut items = Vec::new();
    for (record, start) in page.records.iter().zip(&built.starts) {
        if let Body::Tile(tile) = &record.body {
            let packed = packed(page, &tile.contents);
            let mask: u64 = packed.iter().map(|element| 1 << element).sum();
            let mut indexes =
                packed.iter().filter(|element| page.elements[**element].type_code != FLOAT);
            let index = indexes.next().map_or(256, |element| u64::from(tile.contents[*element][0]));
            items.push([u64::from(tile.index), *start as u64, mask, index]);
        }
    }
    items.sort_unstable_by_key(|item| item[0]);
    items.concat()
}

/// The elements whose bytes are fewer than an uncompressed content has.
pub fn packed(page: &Page, contents: &[Vec<u8>]) -> Vec<usize> {
    let is_packed = |element: &usize| contents[*element].len() < page.uncompressed_size(*element);
    (0..contents.len()).filter(is_packed).collect()
}

fn metadata(page: &Page, built: &Built) -> Vec<u64> {
    let lengths =
        ["metadata name length", "metadata content length", "metadata description length"];
    let [mut names, mut contents, mut descriptions] =
        lengths.map(|length| built.named(length).into_iter());
    let behind = |fields: &mut dyn Iterator<Item = Field>| {
        let field = fields.next().expect("each metadata record has all three");
        (field.at + field.width) as u64
    };
    let mut items = Vec::new();
    for (record, start) in page.records.iter().zip(&built.starts) {
        if let Body::Metadata(metadata) = &record.body {
            items.extend([*start as u64, behind(&mut names), metadata.name.len() as u64]);
            items.extend([u64::from(metadata.id), u64::from(metadata.data_type)]);
            items.extend([behind(&mut contents), metadata.content.len() as u64]);
            items.extend([behind(&mut descriptions), metadata.description.len() as u64]);
        }
    }
    items
}

fn methods(page: &Page, built: &Built) -> Vec<u64> {
    let lengths = built.named("method name length");
    let item = |(field, name): (&Field, &Vec<u8>)| [field.at as u64 + 2, name.len() as u64];
    lengths.iter().zip(&page.methods).flat_map(item).collect()
}
