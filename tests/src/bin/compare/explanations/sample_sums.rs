//! Short files whose rule is known.

use super::ask::ask;
use crate::run::Run;

pub fn section(run: &mut Run) {
    let mark = b"gvrs raster\0";
    let with = |rest: &[u8]| [&mark[..], rest].concat();
    expect(run, &[], (1, [0, 1, 0, 0, 0, 16]));
    expect(run, &[0; 16], (1, [0, 2, 0, 0, 0, 0]));
    expect(run, &with(&[1, 3, 0, 0]), (2, [0, 4, 0, 13, 3, 4]));
    expect(run, &with(&[2, 4, 0, 0]), (2, [0, 3, 0, 12, 2, 1]));
    expect(run, &with(&[1, 4, 0, 0]), (3, [0, 8, 0, 20, 0, 6]));
    expect(run, &with(&[1, 4, 0, 0, 12, 0, 0, 0]), (3, [0, 5, 0, 16, 12, 8]));
    let of_24 = with(&[1, 4, 0, 0, 16, 0, 0, 0, 6, 0, 0, 0]);
    expect(run, &of_24, (3, [0, 7, 0, 16, 32, 24]));
    // A length of which two bytes are there reads as 0.
    expect(run, &with(&[1, 4, 0, 0, 1, 1]), (3, [0, 8, 0, 20, 0, 6]));
}

fn expect(run: &mut Run, file: &[u8], expected: (u32, [u64; 6])) {
    let explained = ask(run, "sample sums", file);
    if explained.as_numbers() != expected {
        run.fault(&format!("why refused: {explained:?}, expected {expected:?}"), file);
    }
}
