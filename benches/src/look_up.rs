//! The look-up that does not repeat the check: its time does not grow with the file. The same few cells are asked for again and
//! again, so that the machine's caches hold them in a long file as in a short one.

use std::hint::black_box;

use crate::{shapes, shortest};

extern "C" {
    fn gvrs_bench_look_up(file: *const u8, n: u64, row: u64, column: u64, element: u64) -> u32;
}

const TIMES: u64 = 200_000;
const CELLS: u64 = 1_000;

/// Prints the time of one look-up, in files of about 1 and 16 MiB, and how they compare.
pub fn measure() {
    let [short, long] = [16, 256].map(measure_rows);
    println!("look-up of a cell, 16 MiB to 1 MiB: ratio {:.2}", long / short);
}

/// Prints and gives the time of one look-up, in nanoseconds, in a file of so many rows of 256 tiles.
fn measure_rows(rows: u64) -> f64 {
    let file = shapes::small_tiles(rows, true);
    let all = shortest(|| {
        let mut sum = 0;
        for k in 0..TIMES {
            let cell = k % CELLS;
            let (row, column) = (cell * 7919 % (rows * 7), cell * 104_729 % (256 * 8));
            sum += u64::from(look_up(&file, row, column));
        }
        black_box(sum);
    });
    let each = all.as_nanos() as f64 / TIMES as f64;
    println!("look-up of a cell without the check, file of {:>8} bytes: {each:.0} ns", file.len());
    each
}

fn look_up(file: &[u8], row: u64, column: u64) -> u32 {
    // The slice is alive for the whole call.
    unsafe { gvrs_bench_look_up(file.as_ptr(), file.len() as u64, row, column, 0) }
}
