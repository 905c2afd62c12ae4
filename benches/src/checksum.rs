//! CRC32C by itself, against the same table loop in Rust.

use std::hint::black_box;

use gvrs_tests::second::crc32c::crc32c;

use crate::shapes::CEILING;
use crate::{milliseconds, shortest};

extern "C" {
    fn gvrs_bench_crc(file: *const u8, n: u64) -> u32;
}

/// Prints the time of both for 16 MiB, whole and in parts. Both must give the same sums.
pub fn measure() {
    let bytes: Vec<u8> = (0..CEILING).map(|at| (at ^ (at >> 8)) as u8).collect();
    for part in [CEILING, 256, 32, 28, 16, 12, 8] {
        measure_parts(&bytes, part);
    }
}

/// Prints one line.
fn measure_parts(bytes: &[u8], length: usize) {
    let parts = || bytes.chunks_exact(length);
    let sums_agree = parts().all(|part| of_library(part) == crc32c(part));
    assert!(sums_agree, "both give the same sums");
    let library = shortest(|| {
        for part in parts() {
            black_box(of_library(black_box(part)));
        }
    });
    let table_loop = shortest(|| {
        for part in parts() {
            black_box(crc32c(black_box(part)));
        }
    });
    println!(
        "CRC32C of 16 MiB in parts of {length:>8}: library {:>5.1} ms, table loop {:>5.1} ms, ratio {:.2}",
        milliseconds(library),
        milliseconds(table_loop),
        library.as_secs_f64() / table_loop.as_secs_f64(),
    );
}

fn of_library(bytes: &[u8]) -> u32 {
    // The slice is alive for the whole call.
    unsafe { gvrs_bench_crc(bytes.as_ptr(), bytes.len() as u64) }
}
