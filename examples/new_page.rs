// examples/new_page.rs: makes a page from nothing, with one tile, and reads a cell of it; with `judge` it judges scores too.
//
//     rustc -O examples/new_page.rs -L crates/gvrs_c/out -l static=gvrs_c -o new_page
//     ./new_page NEW [judge]
use std::{env, fs, process};

#[path = "../gvrs-sys/src/lib.rs"]
mod gvrs;

// Whether the scores of a rectangle of element 1 are certain, and the lowest of them.
fn judged(file: &[u8], row: u64, column: u64, rows: u64, columns: u64) -> String {
    let (mut memory, mut out) = ([0; 64], [0; 4]);
    let grade = gvrs::deed(file, gvrs::NO_COMPRESSOR, 1, row, column, rows, columns, &mut memory, &mut out);
    let word = match grade {
        gvrs::CERTAIN => "certain",
        gvrs::DOUBTFUL => "doubtful",
        gvrs::UNREAD => "unread",
        number => gvrs::refusal(number),
    };
    format!("{word}, fills {}, lowest {}", out[0], out[2])
}

fn main() {
    let page: [u32; 6] = [4, 6, 2, 3, 1, 0]; // a grid of 4 by 6, tiles of 2 by 3, checksums on, no product label
    let glyph = [0, 0, 5, 0, 0, 0, 0, 0, 0, 0, 0, 0, 0, 0]; // an Integer with the fill 0
    let score = [3, 0, 5, 0, 0, 0, 0, 1000, -1i32 as u32, 0, 0, 0, 0, 0]; // a Short of 0 to 1000 with the fill -1
    let mut cells: Vec<u8> = (101..=106).flat_map(i32::to_le_bytes).collect(); // tile 3: its glyphs, then its scores
    cells.extend([990i16, 985, 1000, 870, 920, 999].iter().flat_map(|x| x.to_le_bytes()));
    let (mut front, mut file, mut n, mut cell) = ([0; 512], [0; 4096], [0], [0; 3]);
    let stop = |what, number, place| { if number != 0 { println!("{what}: refused {number} at {place}"); process::exit(1) } };
    let number = gvrs::front(&page, &[0; 16], &[glyph, score].concat(), b"glyphscore", &mut front, &mut n);
    stop("front", number, n[0]);
    let number = gvrs::lay_down(&front[..n[0] as usize], 1, &[3], &cells, &mut file, &mut n);
    stop("lay-down", number, n[0]);
    let file = &file[..n[0] as usize];
    let name = env::args().nth(1).expect("usage: new_page NEW");
    fs::write(&name, file).expect(&name);
    let kind = gvrs::cell(file, 3, 4, 1, gvrs::BY_DIRECTORY, &mut cell);
    println!("{} bytes; cell (3, 4) of score: {} {}", file.len(), if kind == gvrs::STORED { "stored" } else { "not stored" }, cell[1]);
    if env::args().nth(2).as_deref() == Some("judge") {
        println!("tile 3: {}", judged(file, 2, 3, 2, 3));
        println!("page: {}", judged(file, 0, 0, 4, 6));
    }
}
