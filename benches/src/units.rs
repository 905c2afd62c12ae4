//! The check of files of several shapes, in units and against the second implementation's. One unit
//! is CRC32C of as many bytes, byte by byte: a file may cost only so many times what its bytes are
//! worth, whoever made it.

use std::hint::black_box;
use std::time::Duration;

use gvrs_tests::library;
use gvrs_tests::second::check::check;
use gvrs_tests::second::crc32c::crc32c;

use crate::shapes::{self, CEILING, MEBIBYTE};
use crate::{milliseconds, shortest};

/// Files of 16 MiB as they are meant take at most so many units.
const FRIENDLY: f64 = 0.5;
/// As many tiles as there may be, of 16 elements and of one, a cell each.
const SIXTEEN_ELEMENTS: f64 = 2.0;
const ONE_ELEMENT: f64 = 1.2;
/// Files of 16 MiB that descriptions fill.
const DESCRIPTIONS: f64 = 2.0;
/// Files of every other shape.
pub const ANY: f64 = 8.0;

/// The width of a shape's name.
const SHAPE: usize = 56;

/// What the files that were measured took.
pub struct Units {
    within: bool,
    worst: f64,
    worst_shape: String,
}

impl Units {
    /// Nothing yet. Prints the heading.
    pub fn new() -> Units {
        println!(
            "{:SHAPE$} {:>8} {:>11} {:>11} {:>6} {:>11} {:>6} {:>7}",
            "check", "bytes", "library", "second", "ratio", "unit", "units", "at most"
        );
        Units { within: true, worst: 0.0, worst_shape: String::new() }
    }

    /// Prints one line. Both implementations must accept the file.
    pub fn measure(&mut self, shape: &str, bound: f64, file: &[u8]) {
        let of_library = shortest(|| {
            assert_eq!(library::check(black_box(file)), (0, 0), "{shape}: the library accepts");
        });
        let of_second = shortest(|| {
            assert_eq!(check(black_box(file)), (0, 0), "{shape}: the second one accepts");
        });
        let ratio = of_library.as_secs_f64() / of_second.as_secs_f64();
        let second = format!("{:>8.2} ms {ratio:>6.2}", milliseconds(of_second));
        self.line(shape, bound, file, of_library, &second);
    }

    /// The same without the second implementation. The library must give the answer.
    pub fn measure_alone(&mut self, shape: &str, bound: f64, file: &[u8], answer: u32) {
        let of_library = shortest(|| {
            assert_eq!(library::check(black_box(file)).0, answer, "{shape}: another answer");
        });
        self.line(shape, bound, file, of_library, "");
    }

    fn line(&mut self, shape: &str, bound: f64, file: &[u8], of_library: Duration, second: &str) {
        let unit = shortest(|| {
            black_box(crc32c(black_box(file)));
        });
        let units = of_library.as_secs_f64() / unit.as_secs_f64();
        println!(
            "{shape:SHAPE$} {:>8} {:>8.2} ms {second:18} {:>8.2} ms {units:>6.2} {bound:>7.2}",
            file.len(),
            milliseconds(of_library),
            milliseconds(unit),
        );
        if units > bound {
            println!("FAULT: the check of this file takes more than {bound} units");
            self.within = false;
        }
        if units > self.worst {
            (self.worst, self.worst_shape) = (units, shape.to_string());
        }
    }

    /// Prints the worst of them. True if none took more units than its bound.
    pub fn close(self) -> bool {
        println!("most units: {:.2}, {}", self.worst, self.worst_shape);
        self.within
    }
}

pub fn measure(units: &mut Units) {
    units.measure("few large tiles", FRIENDLY, &shapes::few_large_tiles(true));
    units.measure("few large tiles, checksums off", FRIENDLY, &shapes::few_large_tiles(false));
    units.measure("65,536 tiles of 56 cells", FRIENDLY, &shapes::many_small_tiles(true));
    let file = shapes::many_small_tiles(false);
    units.measure("65,536 tiles of 56 cells, checksums off", FRIENDLY, &file);
    units.measure("65,536 tiles of 56 cells in reverse", FRIENDLY, &shapes::tiles_in_reverse());
    units.measure("4,000 metadata records", FRIENDLY, &shapes::many_metadata(true));
    let file = shapes::many_metadata(false);
    units.measure("4,000 metadata records, checksums off", FRIENDLY, &file);
    let file = shapes::tiles_of_one_cell(16);
    units.measure("65,536 tiles of a cell of 16 elements", SIXTEEN_ELEMENTS, &file);
    units.measure("65,536 tiles of a cell", ONE_ELEMENT, &shapes::tiles_of_one_cell(1));
    units.measure("directory of 65,536 tiles, none stored", ANY, &shapes::wide_directory());
    units.measure("8,000,000 compression methods", ANY, &shapes::many_methods());
    for character in ["e", "\u{e7}", "\u{65e5}", "\u{233b4}"] {
        let file = shapes::descriptions(character);
        assert_eq!(file.len(), CEILING, "the descriptions fill the file");
        let shape = format!("descriptions, characters of {} bytes", character.len());
        units.measure(&shape, DESCRIPTIONS, &file);
    }
    units.measure("580,000 free records", ANY, &shapes::free_in_order(580_000));
    for length in [MEBIBYTE, 2 * MEBIBYTE, CEILING] {
        measure_reverse(units, length);
    }
}

/// Chains of the smallest records, listed last one first.
fn measure_reverse(units: &mut Units, length: usize) {
    let records = shapes::free_records(length);
    let file = shapes::free_in_reverse(records);
    units.measure(&format!("{records} free records in reverse"), ANY, &file);
    let records = shapes::metadata_records(length);
    let file = shapes::metadata_in_reverse(records);
    units.measure(&format!("{records} metadata records in reverse"), ANY, &file);
}
