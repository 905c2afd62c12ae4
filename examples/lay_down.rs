// examples/lay_down.rs: lays down a new page that keeps one tile of a page.
//
//     rustc -O examples/lay_down.rs -L crates/gvrs_c/out -l static=gvrs_c -o lay_down
//     ./lay_down PAGE TILE NEW
use std::{env, fs, process};

#[path = "../gvrs-sys/src/lib.rs"]
mod gvrs;

// The time modified, in milliseconds since 1970; a real program takes the clock's.
const TIME: u64 = 1;

fn refused(number: u32, place: u64) -> ! {
    println!("refused {number} at {place}: {}", gvrs::refusal(number));
    process::exit(1)
}

fn failed(why: String) -> ! {
    eprintln!("lay_down: {why}");
    process::exit(2)
}

fn main() {
    let arguments: Vec<String> = env::args().collect();
    let [_, page_name, tile, new_name] = &arguments[..] else { failed("usage: lay_down PAGE TILE NEW".into()) };
    let tile: u32 = tile.parse().unwrap_or_else(|_| failed(format!("{tile}: not a number of a tile")));
    let page = fs::read(page_name).unwrap_or_else(|error| failed(format!("{page_name}: {error}")));

    let mut is = [0; 13];
    let (tile_rows, tile_columns, across, elements, front) = match gvrs::page(&page, &mut is) {
        gvrs::ACCEPTED => (is[2], is[3], is[5], is[6], &page[..is[8] as usize]),
        number => refused(number, is[0]),
    };
    let (mut cells, mut at) = (Vec::new(), [0; 2]); // the tile's bytes, all elements in order; where an element's are
    for element in 0..elements {
        match gvrs::content(&page, tile.into(), element, &mut at) {
            gvrs::STORED => cells.extend(&page[at[0] as usize..(at[0] + at[1]) as usize]),
            gvrs::FILL => { println!("tile {tile} is not stored"); process::exit(1) }
            number => refused(number, at[0]),
        }
    }
    let (mut file, mut length) = (vec![0; front.len() + cells.len()], [0]); // not enough yet
    loop {
        match gvrs::lay_down(front, TIME, &[tile], &cells, &mut file, &mut length) {
            gvrs::ACCEPTED => break file.truncate(length[0] as usize),
            gvrs::ROOM => file.resize(2 * file.len(), 0),
            number => refused(number, length[0]),
        }
    }
    fs::write(new_name, &file).unwrap_or_else(|error| failed(format!("{new_name}: {error}")));

    // read back the tile's first cell
    let (row, column, mut cell) = (u64::from(tile) / across * tile_rows, u64::from(tile) % across * tile_columns, [0; 3]);
    let found = match gvrs::cell(&file, row, column, 0, gvrs::BY_DIRECTORY, &mut cell) {
        gvrs::STORED => format!("stored {} at {}", cell[1], cell[2]),
        gvrs::FILL => format!("fill {}", cell[1]),
        number => refused(number, cell[2]),
    };
    println!("laid down {} bytes; cell ({row}, {column}): {found}", file.len());
}
