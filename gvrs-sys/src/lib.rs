//! The C interface of the store, `include/gvrs.h`, from Rust: the functions as they are declared there
//! (`raw`), and each with slices in place of pointers and lengths, which is safe to call.
//!
//! A program links with `libgvrs_c.a`: by Cargo, with this folder as a dependency, or with this file as
//! a module and `rustc -L FOLDER -l static=gvrs_c`. What each function takes and answers is said in the
//! header; `out`, `list`, `numbers` and the like may have any length.
//!
//! Why the calls are safe: each pointer is a slice's, with as many elements as are named, so that it is
//! aligned and not null; what is written is borrowed for the call alone, so that it overlaps nothing. The
//! thread needs 320 KiB of stack, which every thread has unless it is told otherwise.
#![allow(clippy::too_many_arguments, dead_code)]

/// The functions as the header declares them.
pub mod raw {
    extern "C" {
        pub fn gvrs_check(file: *const u8, n: u64, out: *mut u64, out_n: u64) -> u32;
        pub fn gvrs_explain(file: *const u8, n: u64, out: *mut u64, out_n: u64) -> u32;
        pub fn gvrs_check_start(first: *const u8, first_n: u64, length: u64, out: *mut u64, out_n: u64) -> u32;
        pub fn gvrs_check_rest(file: *const u8, n: u64, out: *mut u64, out_n: u64) -> u32;
        pub fn gvrs_page(file: *const u8, n: u64, out: *mut u64, out_n: u64) -> u32;
        pub fn gvrs_page_said(file: *const u8, n: u64, out: *mut u64, out_n: u64) -> u32;
        pub fn gvrs_element(file: *const u8, n: u64, element: u64, out: *mut u64, out_n: u64) -> u32;
        pub fn gvrs_element_said(file: *const u8, n: u64, element: u64, out: *mut u64, out_n: u64) -> u32;
        pub fn gvrs_cell(file: *const u8, n: u64, row: u64, column: u64, element: u64, route: u32, out: *mut u64, out_n: u64) -> u32;
        pub fn gvrs_cell_with(
            file: *const u8, n: u64, row: u64, column: u64, element: u64, route: u32, compressor: u32, out: *mut u64, out_n: u64,
        ) -> u32;
        pub fn gvrs_unpack(
            file: *const u8, n: u64, tile: u64, element: u64, compressor: u32, cells: *mut u32, cells_n: u64, out: *mut u64, out_n: u64,
        ) -> u32;
        pub fn gvrs_cells(
            file: *const u8, n: u64, compressor: u32, element: u64, row: u64, column: u64, rows: u64, columns: u64, memory: *mut u32,
            memory_n: u64, kinds: *mut u32, kinds_n: u64, bits: *mut u32, bits_n: u64, out: *mut u64, out_n: u64,
        ) -> u32;
        pub fn gvrs_deed(
            file: *const u8, n: u64, compressor: u32, element: u64, row: u64, column: u64, rows: u64, columns: u64, memory: *mut u32,
            memory_n: u64, out: *mut u64, out_n: u64,
        ) -> u32;
        pub fn gvrs_compare(
            first: *const u8, first_n: u64, first_compressor: u32, second: *const u8, second_n: u64, second_compressor: u32,
            memory: *mut u32, memory_n: u64, list: *mut u32, list_n: u64, out: *mut u64, out_n: u64,
        ) -> u32;
        pub fn gvrs_m32_write(numbers: *const u32, numbers_n: u64, bytes: *mut u8, bytes_n: u64) -> u64;
        pub fn gvrs_m32_read(bytes: *const u8, n: u64, numbers: *mut u32, numbers_n: u64, out: *mut u64, out_n: u64) -> u64;
        pub fn gvrs_content(file: *const u8, n: u64, tile: u64, element: u64, out: *mut u64, out_n: u64) -> u32;
        pub fn gvrs_front(
            page: *const u32, page_n: u64, uuid: *const u8, uuid_n: u64, elements: *const u32, elements_n: u64, texts: *const u8,
            texts_n: u64, front: *mut u8, front_n: u64, out: *mut u64, out_n: u64,
        ) -> u32;
        pub fn gvrs_lay_down(
            front: *const u8, front_n: u64, time: u64, indexes: *const u32, indexes_n: u64, cells: *const u8, cells_n: u64, file: *mut u8,
            file_n: u64, out: *mut u64, out_n: u64,
        ) -> u32;
        pub fn gvrs_sheet_in(
            front: *const u8, front_n: u64, time: u64, sheet: *const u8, sheet_n: u64, file: *mut u8, file_n: u64, out: *mut u64,
            out_n: u64,
        ) -> u32;
        pub fn gvrs_sheet_out(
            file: *const u8, n: u64, compressor: u32, memory: *mut u32, memory_n: u64, sheet: *mut u8, sheet_n: u64, out: *mut u64,
            out_n: u64,
        ) -> u32;
        pub fn gvrs_open_page(file: *mut u8, file_n: u64, n: u64, time: u64, out: *mut u64, out_n: u64) -> u32;
        pub fn gvrs_store_tile(
            file: *mut u8, file_n: u64, n: u64, tile: u64, cells: *const u8, cells_n: u64, out: *mut u64, out_n: u64,
        ) -> u32;
        pub fn gvrs_remove_tile(file: *mut u8, file_n: u64, n: u64, tile: u64, out: *mut u64, out_n: u64) -> u32;
        pub fn gvrs_close_page(file: *mut u8, file_n: u64, n: u64, time: u64, out: *mut u64, out_n: u64) -> u32;
        pub fn gvrs_replay(file: *mut u8, file_n: u64, n: u64, log: *const u8, log_n: u64, out: *mut u64, out_n: u64) -> u32;
        pub fn gvrs_squeeze(file: *mut u8, file_n: u64, n: u64, plan: *mut u64, plan_n: u64, out: *mut u64, out_n: u64) -> u32;
        pub fn gvrs_check_plan(file: *const u8, file_n: u64, n: u64, plan: *const u64, plan_n: u64, out: *mut u64, out_n: u64) -> u32;
        pub fn gvrs_tight_plan(file: *const u8, file_n: u64, n: u64, plan: *mut u64, plan_n: u64, out: *mut u64, out_n: u64) -> u32;
        pub fn gvrs_open_page_stopped(file: *mut u8, file_n: u64, n: u64, time: u64, stores: u64, out: *mut u64, out_n: u64) -> u32;
        pub fn gvrs_store_tile_stopped(
            file: *mut u8, file_n: u64, n: u64, tile: u64, cells: *const u8, cells_n: u64, stores: u64, out: *mut u64, out_n: u64,
        ) -> u32;
        pub fn gvrs_remove_tile_stopped(file: *mut u8, file_n: u64, n: u64, tile: u64, stores: u64, out: *mut u64, out_n: u64) -> u32;
        pub fn gvrs_close_page_stopped(file: *mut u8, file_n: u64, n: u64, time: u64, stores: u64, out: *mut u64, out_n: u64) -> u32;
        pub fn gvrs_squeeze_stopped(
            file: *mut u8, file_n: u64, n: u64, plan: *mut u64, plan_n: u64, stores: u64, out: *mut u64, out_n: u64,
        ) -> u32;
        pub fn gvrs_list(file: *const u8, n: u64, text: *mut u8, text_n: u64) -> u64;
        pub fn gvrs_is_identifier(name: *const u8, n: u64) -> u32;
        pub fn gvrs_is_utf8(text: *const u8, n: u64) -> u32;
        pub fn gvrs_compare_names(a: *const u8, a_n: u64, b: *const u8, b_n: u64, out: *mut u64, out_n: u64) -> u32;
        pub fn gvrs_find_element(file: *const u8, n: u64, name: *const u8, name_n: u64, out: *mut u64, out_n: u64) -> u32;
        pub fn gvrs_tiles(file: *const u8, n: u64, from: u64, numbers: *mut u64, numbers_n: u64, out: *mut u64, out_n: u64) -> u32;
        pub fn gvrs_metadata(file: *const u8, n: u64, from: u64, numbers: *mut u64, numbers_n: u64, out: *mut u64, out_n: u64) -> u32;
        pub fn gvrs_methods(file: *const u8, n: u64, from: u64, numbers: *mut u64, numbers_n: u64, out: *mut u64, out_n: u64) -> u32;
        pub fn gvrs_find_metadata(file: *const u8, n: u64, name: *const u8, name_n: u64, id: u32, out: *mut u64, out_n: u64) -> u32;
    }
}

pub const ACCEPTED: u32 = 0;
pub const NOT_GVRS: u32 = 1;
pub const VERSION: u32 = 2;
pub const HEADER: u32 = 3;
pub const CEILING: u32 = 4;
pub const OPENED: u32 = 5;
pub const CHAIN: u32 = 6;
pub const CHECKSUM: u32 = 7;
pub const BODY: u32 = 8;
pub const DIRECTORY: u32 = 9;
pub const OUTSIDE: u32 = 10;
pub const COMPRESSED: u32 = 11;
pub const INPUT: u32 = 12;
pub const ROOM: u32 = 13;
pub const MALFORMED: u32 = 14;
pub const NOT_OPEN: u32 = 15;
pub const INCOMPLETE: u32 = 16;
pub const STORED: u32 = 32;
pub const FILL: u32 = 33;
pub const UNPACKED: u32 = 34;
pub const CERTAIN: u32 = 64;
pub const DOUBTFUL: u32 = 65;
pub const UNREAD: u32 = 66;
pub const BY_DIRECTORY: u32 = 0;
pub const BY_WALK: u32 = 1;
pub const BY_RECORDS: u32 = 2;

/// A compressor index that no content has.
pub const NO_COMPRESSOR: u32 = 256;

/// The header has refusals and rules in words, a line for each.
const C_HEADER: &str = include_str!("../../include/gvrs.h");

fn words(function: &str, number: u32) -> Option<&'static str> {
    let beginning = format!("    case {number}: return \"");
    let lines = C_HEADER.lines().skip_while(|line| !line.starts_with(function));
    lines.take_while(|line| *line != "}").find_map(|line| line.strip_prefix(&beginning)?.strip_suffix("\";"))
}

/// A refusal in words, by its number.
pub fn refusal(number: u32) -> &'static str {
    words("const char *gvrs_refusal(", number).unwrap_or("no refusal")
}

/// A rule of `explain` in words, by its number.
pub fn rule(number: u32) -> &'static str {
    words("const char *gvrs_rule(", number).unwrap_or("no rule")
}

/// The check: 0 or the refusal's number; `out` takes its place.
pub fn check(file: &[u8], out: &mut [u64]) -> u32 {
    unsafe { raw::gvrs_check(file.as_ptr(), file.len() as u64, out.as_mut_ptr(), out.len() as u64) }
}

/// The check, and why: `out` takes the place, the rule, the number of what breaks it, the position of its field, what is found and what is wanted.
pub fn explain(file: &[u8], out: &mut [u64]) -> u32 {
    unsafe { raw::gvrs_explain(file.as_ptr(), file.len() as u64, out.as_mut_ptr(), out.len() as u64) }
}

/// The first half of the check, from a file's first bytes and its stated length.
pub fn check_start(first: &[u8], length: u64, out: &mut [u64]) -> u32 {
    unsafe { raw::gvrs_check_start(first.as_ptr(), first.len() as u64, length, out.as_mut_ptr(), out.len() as u64) }
}

/// The second half, of the whole file.
pub fn check_rest(file: &[u8], out: &mut [u64]) -> u32 {
    unsafe { raw::gvrs_check_rest(file.as_ptr(), file.len() as u64, out.as_mut_ptr(), out.len() as u64) }
}

/// What a page is, as up to 13 numbers.
pub fn page(file: &[u8], out: &mut [u64]) -> u32 {
    unsafe { raw::gvrs_page(file.as_ptr(), file.len() as u64, out.as_mut_ptr(), out.len() as u64) }
}

/// The same and what it says of itself, as up to 21 numbers.
pub fn page_said(file: &[u8], out: &mut [u64]) -> u32 {
    unsafe { raw::gvrs_page_said(file.as_ptr(), file.len() as u64, out.as_mut_ptr(), out.len() as u64) }
}

/// What an element is, as up to 6 numbers.
pub fn element(file: &[u8], element: u64, out: &mut [u64]) -> u32 {
    unsafe { raw::gvrs_element(file.as_ptr(), file.len() as u64, element, out.as_mut_ptr(), out.len() as u64) }
}

/// The same and what the page says of it, as up to 18 numbers.
pub fn element_said(file: &[u8], element: u64, out: &mut [u64]) -> u32 {
    unsafe { raw::gvrs_element_said(file.as_ptr(), file.len() as u64, element, out.as_mut_ptr(), out.len() as u64) }
}

/// A cell: its kind; `out` takes type, bits, place, tile and the number inside the tile.
pub fn cell(file: &[u8], row: u64, column: u64, element: u64, route: u32, out: &mut [u64]) -> u32 {
    unsafe { raw::gvrs_cell(file.as_ptr(), file.len() as u64, row, column, element, route, out.as_mut_ptr(), out.len() as u64) }
}

/// The same, where content of the compressor index named is unpacked.
pub fn cell_with(file: &[u8], row: u64, column: u64, element: u64, route: u32, compressor: u32, out: &mut [u64]) -> u32 {
    unsafe {
        raw::gvrs_cell_with(file.as_ptr(), file.len() as u64, row, column, element, route, compressor, out.as_mut_ptr(), out.len() as u64)
    }
}

/// All cells of an element in a tile.
pub fn unpack(file: &[u8], tile: u64, element: u64, compressor: u32, cells: &mut [u32], out: &mut [u64]) -> u32 {
    unsafe {
        raw::gvrs_unpack(
            file.as_ptr(),
            file.len() as u64,
            tile,
            element,
            compressor,
            cells.as_mut_ptr(),
            cells.len() as u64,
            out.as_mut_ptr(),
            out.len() as u64,
        )
    }
}

/// The cells of a rectangle; `memory` is lent, 524,288 numbers let every tile be unpacked once.
pub fn cells(
    file: &[u8], compressor: u32, element: u64, row: u64, column: u64, rows: u64, columns: u64, memory: &mut [u32], kinds: &mut [u32],
    bits: &mut [u32], out: &mut [u64],
) -> u32 {
    unsafe {
        raw::gvrs_cells(
            file.as_ptr(),
            file.len() as u64,
            compressor,
            element,
            row,
            column,
            rows,
            columns,
            memory.as_mut_ptr(),
            memory.len() as u64,
            kinds.as_mut_ptr(),
            kinds.len() as u64,
            bits.as_mut_ptr(),
            bits.len() as u64,
            out.as_mut_ptr(),
            out.len() as u64,
        )
    }
}

/// Whether the scores of a rectangle are certain, doubtful or unread; `out` takes the fills, whether there is a lowest score, which, and the scale.
pub fn deed(
    file: &[u8], compressor: u32, element: u64, row: u64, column: u64, rows: u64, columns: u64, memory: &mut [u32], out: &mut [u64],
) -> u32 {
    unsafe {
        raw::gvrs_deed(
            file.as_ptr(),
            file.len() as u64,
            compressor,
            element,
            row,
            column,
            rows,
            columns,
            memory.as_mut_ptr(),
            memory.len() as u64,
            out.as_mut_ptr(),
            out.len() as u64,
        )
    }
}

/// The cells in which two pages differ; `out` takes their number, or a refusal's place and whose page it is of, `list` five numbers for each.
pub fn compare(
    first: &[u8], first_compressor: u32, second: &[u8], second_compressor: u32, memory: &mut [u32], list: &mut [u32], out: &mut [u64],
) -> u32 {
    unsafe {
        raw::gvrs_compare(
            first.as_ptr(),
            first.len() as u64,
            first_compressor,
            second.as_ptr(),
            second.len() as u64,
            second_compressor,
            memory.as_mut_ptr(),
            memory.len() as u64,
            list.as_mut_ptr(),
            list.len() as u64,
            out.as_mut_ptr(),
            out.len() as u64,
        )
    }
}

/// The M32 codes of numbers: their length.
pub fn m32_write(numbers: &[u32], bytes: &mut [u8]) -> u64 {
    unsafe { raw::gvrs_m32_write(numbers.as_ptr(), numbers.len() as u64, bytes.as_mut_ptr(), bytes.len() as u64) }
}

/// As many whole M32 codes as stand there and as fit: how many; `out` takes the bytes that they take.
pub fn m32_read(bytes: &[u8], numbers: &mut [u32], out: &mut [u64]) -> u64 {
    unsafe {
        raw::gvrs_m32_read(
            bytes.as_ptr(),
            bytes.len() as u64,
            numbers.as_mut_ptr(),
            numbers.len() as u64,
            out.as_mut_ptr(),
            out.len() as u64,
        )
    }
}

/// Start and length of an element's uncompressed content in a tile.
pub fn content(file: &[u8], tile: u64, element: u64, out: &mut [u64]) -> u32 {
    unsafe { raw::gvrs_content(file.as_ptr(), file.len() as u64, tile, element, out.as_mut_ptr(), out.len() as u64) }
}

/// A front from a description; `out` takes its length.
pub fn front(page: &[u32], uuid: &[u8], elements: &[u32], texts: &[u8], front: &mut [u8], out: &mut [u64]) -> u32 {
    unsafe {
        raw::gvrs_front(
            page.as_ptr(),
            page.len() as u64,
            uuid.as_ptr(),
            uuid.len() as u64,
            elements.as_ptr(),
            elements.len() as u64,
            texts.as_ptr(),
            texts.len() as u64,
            front.as_mut_ptr(),
            front.len() as u64,
            out.as_mut_ptr(),
            out.len() as u64,
        )
    }
}

/// A page laid down in `file`; `out` takes its length.
pub fn lay_down(front: &[u8], time: u64, indexes: &[u32], cells: &[u8], file: &mut [u8], out: &mut [u64]) -> u32 {
    unsafe {
        raw::gvrs_lay_down(
            front.as_ptr(),
            front.len() as u64,
            time,
            indexes.as_ptr(),
            indexes.len() as u64,
            cells.as_ptr(),
            cells.len() as u64,
            file.as_mut_ptr(),
            file.len() as u64,
            out.as_mut_ptr(),
            out.len() as u64,
        )
    }
}

/// A score sheet moved into a page; `out` takes its length.
pub fn sheet_in(front: &[u8], time: u64, sheet: &[u8], file: &mut [u8], out: &mut [u64]) -> u32 {
    unsafe {
        raw::gvrs_sheet_in(
            front.as_ptr(),
            front.len() as u64,
            time,
            sheet.as_ptr(),
            sheet.len() as u64,
            file.as_mut_ptr(),
            file.len() as u64,
            out.as_mut_ptr(),
            out.len() as u64,
        )
    }
}

/// A page moved out to a score sheet; `out` takes its length.
pub fn sheet_out(file: &[u8], compressor: u32, memory: &mut [u32], sheet: &mut [u8], out: &mut [u64]) -> u32 {
    unsafe {
        raw::gvrs_sheet_out(
            file.as_ptr(),
            file.len() as u64,
            compressor,
            memory.as_mut_ptr(),
            memory.len() as u64,
            sheet.as_mut_ptr(),
            sheet.len() as u64,
            out.as_mut_ptr(),
            out.len() as u64,
        )
    }
}

/// Opens a page for writing, the first `n` bytes of `file`; `out` takes its new length, as of each of these.
pub fn open_page(file: &mut [u8], n: u64, time: u64, out: &mut [u64]) -> u32 {
    unsafe { raw::gvrs_open_page(file.as_mut_ptr(), file.len() as u64, n, time, out.as_mut_ptr(), out.len() as u64) }
}

/// Stores a whole tile in an open page.
pub fn store_tile(file: &mut [u8], n: u64, tile: u64, cells: &[u8], out: &mut [u64]) -> u32 {
    unsafe {
        raw::gvrs_store_tile(
            file.as_mut_ptr(),
            file.len() as u64,
            n,
            tile,
            cells.as_ptr(),
            cells.len() as u64,
            out.as_mut_ptr(),
            out.len() as u64,
        )
    }
}

/// Removes a tile of an open page.
pub fn remove_tile(file: &mut [u8], n: u64, tile: u64, out: &mut [u64]) -> u32 {
    unsafe { raw::gvrs_remove_tile(file.as_mut_ptr(), file.len() as u64, n, tile, out.as_mut_ptr(), out.len() as u64) }
}

/// Closes a page.
pub fn close_page(file: &mut [u8], n: u64, time: u64, out: &mut [u64]) -> u32 {
    unsafe { raw::gvrs_close_page(file.as_mut_ptr(), file.len() as u64, n, time, out.as_mut_ptr(), out.len() as u64) }
}

/// Replays a correction log on an open page; `out` takes the page's length and the entries done.
pub fn replay(file: &mut [u8], n: u64, log: &[u8], out: &mut [u64]) -> u32 {
    unsafe { raw::gvrs_replay(file.as_mut_ptr(), file.len() as u64, n, log.as_ptr(), log.len() as u64, out.as_mut_ptr(), out.len() as u64) }
}

/// Squeezes an open page by a plan, which holds the same numbers afterwards.
pub fn squeeze(file: &mut [u8], n: u64, plan: &mut [u64], out: &mut [u64]) -> u32 {
    unsafe {
        raw::gvrs_squeeze(file.as_mut_ptr(), file.len() as u64, n, plan.as_mut_ptr(), plan.len() as u64, out.as_mut_ptr(), out.len() as u64)
    }
}

/// What squeezing by a plan would answer.
pub fn check_plan(file: &[u8], n: u64, plan: &[u64], out: &mut [u64]) -> u32 {
    unsafe {
        raw::gvrs_check_plan(file.as_ptr(), file.len() as u64, n, plan.as_ptr(), plan.len() as u64, out.as_mut_ptr(), out.len() as u64)
    }
}

/// The plan that leaves nothing free; `out` takes the page's length by it and the number of starts.
pub fn tight_plan(file: &[u8], n: u64, plan: &mut [u64], out: &mut [u64]) -> u32 {
    unsafe {
        raw::gvrs_tight_plan(file.as_ptr(), file.len() as u64, n, plan.as_mut_ptr(), plan.len() as u64, out.as_mut_ptr(), out.len() as u64)
    }
}

/// Each call stopped after `stores` byte stores; `out` takes their number too.
pub fn open_page_stopped(file: &mut [u8], n: u64, time: u64, stores: u64, out: &mut [u64]) -> u32 {
    unsafe { raw::gvrs_open_page_stopped(file.as_mut_ptr(), file.len() as u64, n, time, stores, out.as_mut_ptr(), out.len() as u64) }
}

/// The same of a tile stored.
pub fn store_tile_stopped(file: &mut [u8], n: u64, tile: u64, cells: &[u8], stores: u64, out: &mut [u64]) -> u32 {
    unsafe {
        raw::gvrs_store_tile_stopped(
            file.as_mut_ptr(),
            file.len() as u64,
            n,
            tile,
            cells.as_ptr(),
            cells.len() as u64,
            stores,
            out.as_mut_ptr(),
            out.len() as u64,
        )
    }
}

/// The same of a tile removed.
pub fn remove_tile_stopped(file: &mut [u8], n: u64, tile: u64, stores: u64, out: &mut [u64]) -> u32 {
    unsafe { raw::gvrs_remove_tile_stopped(file.as_mut_ptr(), file.len() as u64, n, tile, stores, out.as_mut_ptr(), out.len() as u64) }
}

/// The same of a page closed.
pub fn close_page_stopped(file: &mut [u8], n: u64, time: u64, stores: u64, out: &mut [u64]) -> u32 {
    unsafe { raw::gvrs_close_page_stopped(file.as_mut_ptr(), file.len() as u64, n, time, stores, out.as_mut_ptr(), out.len() as u64) }
}

/// The same of a page squeezed.
pub fn squeeze_stopped(file: &mut [u8], n: u64, plan: &mut [u64], stores: u64, out: &mut [u64]) -> u32 {
    unsafe {
        raw::gvrs_squeeze_stopped(
            file.as_mut_ptr(),
            file.len() as u64,
            n,
            plan.as_mut_ptr(),
            plan.len() as u64,
            stores,
            out.as_mut_ptr(),
            out.len() as u64,
        )
    }
}

/// The listing's length; `text` takes it where it fits.
pub fn list(file: &[u8], text: &mut [u8]) -> u64 {
    unsafe { raw::gvrs_list(file.as_ptr(), file.len() as u64, text.as_mut_ptr(), text.len() as u64) }
}

/// 1 where an element or a metadata record may have the name, else 0.
pub fn is_identifier(name: &[u8]) -> u32 {
    unsafe { raw::gvrs_is_identifier(name.as_ptr(), name.len() as u64) }
}

/// 1 where a label, a description or a unit may have the bytes, else 0.
pub fn is_utf8(text: &[u8]) -> u32 {
    unsafe { raw::gvrs_is_utf8(text.as_ptr(), text.len() as u64) }
}

/// 1 where two names are equal, else 0; `out` takes the number of byte pairs read.
pub fn compare_names(a: &[u8], b: &[u8], out: &mut [u64]) -> u32 {
    unsafe { raw::gvrs_compare_names(a.as_ptr(), a.len() as u64, b.as_ptr(), b.len() as u64, out.as_mut_ptr(), out.len() as u64) }
}

/// The element of a name: 32, and `out` takes its number, or 33.
pub fn find_element(file: &[u8], name: &[u8], out: &mut [u64]) -> u32 {
    unsafe {
        raw::gvrs_find_element(file.as_ptr(), file.len() as u64, name.as_ptr(), name.len() as u64, out.as_mut_ptr(), out.len() as u64)
    }
}

/// The stored tiles from the item `from` on, four numbers each; `out` takes how many were taken and how many there are.
pub fn tiles(file: &[u8], from: u64, numbers: &mut [u64], out: &mut [u64]) -> u32 {
    unsafe {
        raw::gvrs_tiles(
            file.as_ptr(),
            file.len() as u64,
            from,
            numbers.as_mut_ptr(),
            numbers.len() as u64,
            out.as_mut_ptr(),
            out.len() as u64,
        )
    }
}

/// The metadata records, nine numbers each.
pub fn metadata(file: &[u8], from: u64, numbers: &mut [u64], out: &mut [u64]) -> u32 {
    unsafe {
        raw::gvrs_metadata(
            file.as_ptr(),
            file.len() as u64,
            from,
            numbers.as_mut_ptr(),
            numbers.len() as u64,
            out.as_mut_ptr(),
            out.len() as u64,
        )
    }
}

/// The names of the compression methods, two numbers each.
pub fn methods(file: &[u8], from: u64, numbers: &mut [u64], out: &mut [u64]) -> u32 {
    unsafe {
        raw::gvrs_methods(
            file.as_ptr(),
            file.len() as u64,
            from,
            numbers.as_mut_ptr(),
            numbers.len() as u64,
            out.as_mut_ptr(),
            out.len() as u64,
        )
    }
}

/// The metadata record of a name and an ID: 32, and `out` takes its number, or 33.
pub fn find_metadata(file: &[u8], name: &[u8], id: u32, out: &mut [u64]) -> u32 {
    unsafe {
        raw::gvrs_find_metadata(file.as_ptr(), file.len() as u64, name.as_ptr(), name.len() as u64, id, out.as_mut_ptr(), out.len() as u64)
    }
}
