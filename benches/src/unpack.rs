//! Every cell of a packed tile of 1,048,576 bytes, against the second implementation's unpacking of
//! the same file. Beside it one cell of the tile, and the check of the file.

use std::hint::black_box;
use std::time::Duration;

use gvrs_tests::library::{self, DIRECTORY};
use gvrs_tests::second::cells::{Cells, Opened, Spot, UNPACKED};

use crate::packed::{PackedPage, INDEX};
use crate::{milliseconds, shortest};

/// Unpacking takes at most so many times as long.
const BOUND: f64 = 1.5;

/// Prints a line for each: the file's bytes, and bits of the content for each M32 byte. True if no
/// ratio is above the bound.
pub fn measure(pages: &[PackedPage]) -> bool {
    println!(
        "{:44} {:>8} {:>6} {:>11} {:>11} {:>6} {:>7} {:>11} {:>11}",
        "unpacking a tile of 1 MiB",
        "bytes",
        "bits",
        "library",
        "second",
        "ratio",
        "at most",
        "one cell",
        "check"
    );
    let ratios: Vec<f64> = pages.iter().map(measure_one).collect();
    let within = ratios.iter().all(|ratio| *ratio <= BOUND);
    if !within {
        println!("FAULT: unpacking takes more than {BOUND} times as long");
    }
    within
}

/// Prints one line; the ratio. Both implementations must give the cells that were packed.
fn measure_one(page: &PackedPage) -> f64 {
    let PackedPage { name, file, tile, bits, bits_a_symbol, .. } = page;
    let mut cells = vec![0; bits.len()];
    let of_library = shortest(|| unpack_by_library(page, &mut cells));
    assert!(cells == *bits, "{name}: the library gives other cells");
    let of_second = unpack_by_second(page);
    let [row, column] = tile.map(|side| u64::from(side) - 1);
    let last = Spot { row, column, element: 0 };
    let of_cell = shortest(|| {
        let cell = library::cell_with(black_box(file), last, DIRECTORY, INDEX);
        assert_eq!(cell.0, UNPACKED, "{name}: the library unpacks a cell");
    });
    let of_check = shortest(|| {
        assert_eq!(library::check(black_box(file)), (0, 0), "{name}: the library accepts");
    });
    let ratio = of_library.as_secs_f64() / of_second.as_secs_f64();
    println!(
        "{name:44} {:>8} {bits_a_symbol:>6.1} {:>8.3} ms {:>8.3} ms {ratio:>6.2} {BOUND:>7.2} \
         {:>8.3} ms {:>8.3} ms",
        file.len(),
        milliseconds(of_library),
        milliseconds(of_second),
        milliseconds(of_cell),
        milliseconds(of_check),
    );
    ratio
}

/// How long the second implementation takes for all cells of the tile.
pub fn unpack_by_second(page: &PackedPage) -> Duration {
    let mut cells = Cells::Absent;
    let time = shortest(|| {
        let opened = Opened::checked(black_box(&page.file));
        cells = black_box(opened.cells_with(0, 0, INDEX));
    });
    assert!(
        cells.bits() == page.bits,
        "{}: the second implementation gives other cells",
        page.name
    );
    time
}

/// All cells of the tile by `gvrs_unpack`.
pub fn unpack_by_library(page: &PackedPage, cells: &mut [u32]) {
    let (file, cells) = (black_box(&page.file[..]), black_box(cells));
    let number = library::unpack_into(file, (0, 0), INDEX, cells, &mut [0; 2]);
    assert_eq!(number, UNPACKED, "{}: the library unpacks", page.name);
}
