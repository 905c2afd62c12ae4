//! Refusal 4: each ceiling passed by itself, the others kept.

use gvrs_tests::build::Built;
use gvrs_tests::page::Page;
use gvrs_tests::prng::Prng;

use super::bad_texts::any_bad_text;
use super::header::{more_than_16, spoil_text_of};
use crate::damage::{Aim, At};

pub fn aims() -> Vec<Aim> {
    let mut aims = file_aims();
    aims.extend(side_aims());
    aims.extend(count_aims());
    aims
}

/// The file's length, and earlier faults of such a file.
fn file_aims() -> Vec<Aim> {
    vec![
        Aim::length(4, "file above 16,777,216 bytes", long_file).times(3),
        Aim::length(1, "not identified and above 16,777,216 bytes", |built, random| {
            built.bytes[0] = b'G';
            long_file(built, random)
        })
        .times(1),
        Aim::length(2, "another version and above 16,777,216 bytes", |built, random| {
            built.bytes[13] = 5;
            long_file(built, random)
        })
        .times(1),
        Aim::length(3, "header at fault and above 16,777,216 bytes", |built, random| {
            built.bytes[20] = 5;
            long_file(built, random)
        })
        .times(1),
    ]
}

fn side_aims() -> Vec<Aim> {
    vec![
        Aim::bytes(4, "grid rows above 65,536", |built, random| {
            let side = above(65_536, random);
            sides(built, [side, 1], [4_096, 1])
        }),
        Aim::bytes(4, "grid columns above 65,536", |built, random| {
            let side = above(65_536, random);
            sides(built, [1, side], [1, 4_096])
        }),
        Aim::bytes(4, "tile rows above 4,096", |built, random| {
            let side = above(4_096, random);
            sides(built, [1, 1], [side, 1])
        }),
        Aim::bytes(4, "tile columns above 4,096", |built, random| {
            let side = above(4_096, random);
            sides(built, [1, 1], [1, side])
        }),
    ]
}

fn count_aims() -> Vec<Aim> {
    vec![
        Aim::bytes(4, "tiles above 65,536", many_tiles),
        Aim::description(4, "elements above 16", many_elements),
        Aim::description(4, "elements above 16, faults behind the 16th", faults_behind_16),
        Aim::description(4, "elements above 16, the 17th named z_", named_z_behind_16),
        Aim::description(4, "elements above 16, a text of the 17th not UTF-8", |page, random| {
            more_than_16(page, random);
            spoil_text_of(&mut page.elements[16], random)
        }),
        Aim::description(4, "elements above 16, the product label not UTF-8", |page, random| {
            more_than_16(page, random);
            page.label = any_bad_text(&page.label, random);
            Some(At::Zero)
        }),
        Aim::bytes(4, "elements above 16, the record ends there", record_ends_behind_16),
        Aim::bytes(4, "tile bytes above 1,048,576", many_tile_bytes),
    ]
}

fn long_file(built: &mut Built, random: &mut Prng) -> Option<At> {
    let length = 16_777_216 + random.pick(&[1, 8, 16]);
    built.bytes.resize(length, 0);
    Some(At::Zero)
}

fn above(ceiling: u32, random: &mut Prng) -> u32 {
    random.pick(&[ceiling + 1, ceiling + 7, 2 * ceiling, 0x7fff_ffff])
}

/// Sets grid and tile, rows then columns.
fn sides(built: &mut Built, grid: [u32; 2], tile: [u32; 2]) -> Option<At> {
    let names = ["grid rows", "grid columns", "tile rows", "tile columns"];
    let values = [grid[0], grid[1], tile[0], tile[1]];
    for (name, value) in names.into_iter().zip(values) {
        let field = built.only(name);
        built.set(&field, u64::from(value));
    }
    Some(At::Zero)
}

fn many_tiles(built: &mut Built, random: &mut Prng) -> Option<At> {
    let grids = [[2, 32_769], [32_769, 2], [257, 256], [65_536, 65_536], [65_536, 2], [257, 257]];
    sides(built, random.pick(&grids), [1, 1])
}

fn many_elements(page: &mut Page, random: &mut Prng) -> Option<At> {
    more_than_16(page, random);
    Some(At::Zero)
}

/// The 17th entry is not read: a bad type, a bad name or a name that is taken is no matter there.
fn faults_behind_16(page: &mut Page, random: &mut Prng) -> Option<At> {
    more_than_16(page, random);
    match random.below(4) {
        0 => page.elements[16].type_code = 4,
        1 => page.elements[16].name = b"0".to_vec(),
        2 => page.elements[16].name = page.elements[0].name.clone(),
        _ => page.surplus = 8,
    }
    Some(At::Zero)
}

/// A name that would be refused among the first 16.
fn named_z_behind_16(page: &mut Page, random: &mut Prng) -> Option<At> {
    more_than_16(page, random);
    page.elements[16].name = b"z_".to_vec();
    Some(At::Zero)
}

/// 16 elements are there and fit; the count says more.
fn record_ends_behind_16(built: &mut Built, random: &mut Prng) -> Option<At> {
    let count = built.only("element count");
    if built.value(&count) != 16 {
        return None;
    }
    built.set(&count, random.pick(&[17, 1000, 0x7fff_ffff]));
    let elements_end = built.only("method count").at;
    let length = built.only("header length");
    built.set(&length, (elements_end - 16 + 4).next_multiple_of(8) as u64);
    Some(At::Zero)
}

/// The least that is above, just above or far above, with sides that are kept.
fn many_tile_bytes(built: &mut Built, random: &mut Prng) -> Option<At> {
    let types = built.named("element type");
    let cell: u64 = types.iter().map(|field| if built.value(field) == 3 { 2 } else { 4 }).sum();
    let cells = 1_048_576_u64.checked_div(cell)? + 1;
    let fewest = cells.div_ceil(4096);
    let least = (fewest..=4096).min_by_key(|rows| rows * cells.div_ceil(*rows))?;
    let any = random.between(fewest as usize, 4096) as u64;
    let rows = random.pick(&[least, any]);
    let (rows, columns) = random.pick(&[(rows, cells.div_ceil(rows)), (rows, 4096), (4096, 4096)]);
    sides(built, [1, 1], [rows as u32, columns as u32])
}
