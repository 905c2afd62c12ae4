//! Times the lay-down against copying as many bytes as the file has and, where checksums are on,
//! summing them, and against the second implementation's lay-down. Each shape is taken short and with
//! sixteen times the tiles: the time for a byte stays.

use std::hint::black_box;

use gvrs_tests::build::build;
use gvrs_tests::library;
use gvrs_tests::page::{Element, Page, INTEGER, SHORT};
use gvrs_tests::second::crc32c::crc32c;
use gvrs_tests::second::lay_down::{lay_down, Given};

use crate::shapes::CEILING;
use crate::{milliseconds, shortest};

/// A tile, and how many of them.
struct Shape {
    name: &'static str,
    /// The elements' types.
    types: Vec<u8>,
    /// Rows and columns of a tile.
    tile: [u32; 2],
    /// Tiles down and across in the short file.
    tiles: [u32; 2],
}

fn shapes() -> [Shape; 5] {
    let (one, many) = ([1, 1], [16, 256]);
    let sixteen = [INTEGER, SHORT].repeat(8);
    [
        Shape { name: "4095 x 64 Integers", types: vec![INTEGER], tile: [4095, 64], tiles: one },
        Shape { name: "3 x 19 Integers", types: vec![INTEGER], tile: [3, 19], tiles: many },
        Shape { name: "1 x 113 Shorts", types: vec![SHORT], tile: [1, 113], tiles: many },
        Shape { name: "one Short", types: vec![SHORT], tile: [1, 1], tiles: many },
        Shape { name: "1 x 3, 16 elements", types: sixteen, tile: [1, 3], tiles: many },
    ]
}

pub fn measure() {
    for (checksums, work) in [(true, "copy, sum"), (false, "copy")] {
        println!(
            "{:26} {:>6} {:>9} {:>8} {:>11} {:>11} {:>6} {:>11} {:>6}",
            if checksums { "lay-down of tiles of" } else { "the same, checksums off" },
            "tiles",
            "bytes",
            "a byte",
            "library",
            work,
            "ratio",
            "second",
            "ratio",
        );
        for shape in shapes() {
            for times in [1, 16] {
                measure_shape(&shape, times, checksums);
            }
        }
    }
}

/// Prints one line. Both implementations must lay down the same file.
fn measure_shape(shape: &Shape, times: u32, checksums: bool) {
    let given = given(shape, times, checksums);
    let file = lay_down(&given, CEILING).expect("the second implementation lays the page down");
    let mut buffer = vec![0xff; file.len()];
    let of_library = shortest(|| lay_down_by_library(black_box(&given), black_box(&mut buffer)));
    assert!(buffer == file, "{}: the library lays down another file", shape.name);
    let of_copying = shortest(|| {
        black_box(&mut buffer[..]).copy_from_slice(black_box(&file));
        if checksums {
            black_box(crc32c(black_box(&buffer)));
        }
    });
    let of_second = shortest(|| {
        assert!(black_box(lay_down(black_box(&given), CEILING)).is_ok(), "{}", shape.name);
    });
    println!(
        "{:26} {:>6} {:>9} {:>5.2} ns {:>8.3} ms {:>8.3} ms {:>6.2} {:>8.3} ms {:>6.2}",
        shape.name,
        given.indexes.len(),
        file.len(),
        of_library.as_nanos() as f64 / file.len() as f64,
        milliseconds(of_library),
        milliseconds(of_copying),
        of_library.as_secs_f64() / of_copying.as_secs_f64(),
        milliseconds(of_second),
        of_library.as_secs_f64() / of_second.as_secs_f64(),
    );
}

/// All tiles of the page.
fn given(shape: &Shape, times: u32, checksums: bool) -> Given {
    let [down, across] = [shape.tiles[0] * times, shape.tiles[1]];
    let mut page = Page::of_sides([down * shape.tile[0], across * shape.tile[1]], shape.tile);
    page.checksums = checksums;
    let elements = shape.types.iter().zip(b'a'..);
    page.elements = elements.map(|(type_code, name)| Element::new(*type_code, &[name])).collect();
    let built = build(&page);
    let front = built.bytes[..built.starts[0]].to_vec();
    let tile_bytes: usize = (0..page.elements.len()).map(|e| page.uncompressed_size(e)).sum();
    let cells = (0..page.tile_count() * tile_bytes).map(|at| (at ^ (at >> 8)) as u8).collect();
    Given { front, time: 1, indexes: (0..page.tile_count() as u32).collect(), cells }
}

fn lay_down_by_library(given: &Given, file: &mut [u8]) {
    let mut length = [0];
    let Given { front, time, indexes, cells } = given;
    let number = library::lay_down_into(front, *time, indexes, cells, file, &mut length);
    assert_eq!((number, length[0]), (0, file.len() as u64), "the library lays the page down");
}
