//! The library's C interface, by `gvrs-sys`, with what is asked as the second implementation has it.
//! A function whose name ends in `_into` takes the caller's `out`, of any length.

use crate::second::cells::Spot;
use crate::second::check::Answer;
use crate::second::correct::Call;
use crate::second::front;
use crate::second::rectangles::Rectangle;
use crate::second::says::List;
use crate::second::start::Start;

pub use gvrs_sys::{
    check as check_into, check_plan as check_plan_into, check_rest as check_rest_into,
    check_start as check_start_into, compare_names as compare_names_into, content as content_into,
    element as element_into, element_said as element_said_into, explain as explain_into,
    find_element as find_element_into, find_metadata as find_metadata_into, is_identifier, is_utf8,
    lay_down as lay_down_into, list as list_into, m32_read as m32_read_into,
    m32_write as m32_write_into, page as page_into, page_said as page_said_into,
    replay as replay_into, sheet_in as sheet_in_into, sheet_out as sheet_out_into,
    squeeze as squeeze_into, tight_plan as tight_plan_into,
};

/// The routes of `gvrs_cell` and `gvrs_cell_with`. Every other number is the directory too.
pub const DIRECTORY: u32 = 0;
pub const WALK: u32 = 1;
pub const WALK_WITHOUT_STAGE_9: u32 = 2;

/// The library's answer for the bytes of one file.
pub fn check(file: &[u8]) -> Answer {
    let mut place = [0];
    let number = check_into(file, &mut place);
    (number, place[0])
}

/// The first half of the check: the answer for the first bytes of a file and its stated length.
pub fn check_start(first: &[u8], length: u64) -> Start {
    let mut out = [UNWRITTEN; 2];
    let number = check_start_into(first, length, &mut out);
    Start { number, place: out[0], needed: out[1] }
}

/// The second half of the check: the answer for the bytes of one file.
pub fn check_rest(file: &[u8]) -> Answer {
    let mut place = [UNWRITTEN];
    let number = check_rest_into(file, &mut place);
    (number, place[0])
}

/// The number and all of `out`.
pub fn explain(file: &[u8]) -> (u32, [u64; 6]) {
    let mut out = [UNWRITTEN; 6];
    let number = explain_into(file, &mut out);
    (number, out)
}

/// The number and all of `out`.
pub fn cell(file: &[u8], spot: Spot, route: u32) -> (u32, [u64; 5]) {
    let mut out = [UNWRITTEN; 5];
    let number = cell_into(file, spot, route, &mut out);
    (number, out)
}

pub fn cell_into(file: &[u8], spot: Spot, route: u32, out: &mut [u64]) -> u32 {
    let Spot { row, column, element } = spot;
    gvrs_sys::cell(file, row, column, element, route, out)
}

/// The number and all of `out`.
pub fn content(file: &[u8], tile: u64, element: u64) -> (u32, [u64; 2]) {
    let mut out = [UNWRITTEN; 2];
    let number = content_into(file, tile, element, &mut out);
    (number, out)
}

/// The number and all of `out`.
pub fn cell_with(file: &[u8], spot: Spot, route: u32, compressor: u32) -> (u32, [u64; 5]) {
    let mut out = [UNWRITTEN; 5];
    let number = cell_with_into(file, spot, route, compressor, &mut out);
    (number, out)
}

pub fn cell_with_into(
    file: &[u8],
    spot: Spot,
    route: u32,
    compressor: u32,
    out: &mut [u64],
) -> u32 {
    let Spot { row, column, element } = spot;
    gvrs_sys::cell_with(file, row, column, element, route, compressor, out)
}

/// The number. All cells of an element in a tile go into the caller's `cells`, of any length.
pub fn unpack_into(
    file: &[u8],
    (tile, element): (u64, u64),
    compressor: u32,
    cells: &mut [u32],
    out: &mut [u64],
) -> u32 {
    gvrs_sys::unpack(file, tile, element, compressor, cells, out)
}

/// What a call for the cells of a rectangle is lent: memory that it may use, and room for kinds and
/// bits, each of any length.
pub struct Lent<'a> {
    pub memory: &'a mut [u32],
    pub kinds: &'a mut [u32],
    pub bits: &'a mut [u32],
}

/// The number. The cells of a rectangle go into what is lent.
pub fn cells_into(
    file: &[u8],
    rectangle: Rectangle,
    compressor: u32,
    lent: Lent,
    out: &mut [u64],
) -> u32 {
    let Rectangle { element, row, column, rows, columns } = rectangle;
    let Lent { memory, kinds, bits } = lent;
    gvrs_sys::cells(file, compressor, element, row, column, rows, columns, memory, kinds, bits, out)
}

/// The number. The scores of a rectangle are judged with a memory and an `out`, each of any length.
pub fn deed_into(
    file: &[u8],
    rectangle: Rectangle,
    compressor: u32,
    memory: &mut [u32],
    out: &mut [u64],
) -> u32 {
    let Rectangle { element, row, column, rows, columns } = rectangle;
    gvrs_sys::deed(file, compressor, element, row, column, rows, columns, memory, out)
}

/// A file and the compressor index that is named for it.
pub type WithIndex<'a> = (&'a [u8], u32);

/// The number. Two pages are compared with a memory, a list and an `out`, each of any length.
pub fn compare_into(
    (first, first_compressor): WithIndex,
    (second, second_compressor): WithIndex,
    memory: &mut [u32],
    list: &mut [u32],
    out: &mut [u64],
) -> u32 {
    gvrs_sys::compare(first, first_compressor, second, second_compressor, memory, list, out)
}

/// The number. The file goes into the caller's buffer, its length or the place into `out`; both are
/// of any length.
pub fn front_into(given: &front::Given, front: &mut [u8], out: &mut [u64]) -> u32 {
    let front::Given { page, uuid, elements, texts } = given;
    gvrs_sys::front(page, uuid, elements, texts, front, out)
}

/// The number of one call of a correction, on a buffer whose first `n` bytes are the page. The new
/// length or the place goes into `out`, of any length.
pub fn correct_into(file: &mut [u8], n: u64, call: &Call, out: &mut [u64]) -> u32 {
    match call {
        Call::Open { time } => gvrs_sys::open_page(file, n, *time, out),
        Call::Store { tile, cells } => gvrs_sys::store_tile(file, n, *tile, cells, out),
        Call::Remove { tile } => gvrs_sys::remove_tile(file, n, *tile, out),
        Call::Close { time } => gvrs_sys::close_page(file, n, *time, out),
        Call::Squeeze { plan } => lent_plan(plan, |plan| gvrs_sys::squeeze(file, n, plan, out)),
    }
}

/// A copy of the plan, in an allocation of exactly its length, which a call is lent and gives back
/// with the same numbers.
fn lent_plan(plan: &[u64], call: impl FnOnce(&mut [u64]) -> u32) -> u32 {
    let mut lent: Box<[u64]> = plan.into();
    let number = call(&mut lent);
    assert!(*lent == *plan, "answer {number}: the plan has changed");
    number
}

/// The same as `correct_into`, stopped after so many byte stores. Their number goes into `out` too.
pub fn correct_stopped_into(
    file: &mut [u8],
    n: u64,
    call: &Call,
    stores: u64,
    out: &mut [u64],
) -> u32 {
    match call {
        Call::Open { time } => gvrs_sys::open_page_stopped(file, n, *time, stores, out),
        Call::Store { tile, cells } => {
            gvrs_sys::store_tile_stopped(file, n, *tile, cells, stores, out)
        }
        Call::Remove { tile } => gvrs_sys::remove_tile_stopped(file, n, *tile, stores, out),
        Call::Close { time } => gvrs_sys::close_page_stopped(file, n, *time, stores, out),
        Call::Squeeze { plan } => {
            lent_plan(plan, |plan| gvrs_sys::squeeze_stopped(file, n, plan, stores, out))
        }
    }
}

/// 1 if two names are equal, else 0, and the byte pairs read.
pub fn compare_names(a: &[u8], b: &[u8]) -> (u32, u64) {
    let mut out = [UNWRITTEN];
    let equal = compare_names_into(a, b, &mut out);
    (equal, out[0])
}

/// 32 and the number of the element with a name, 33 and 0, or a refusal.
pub fn find_element(file: &[u8], name: &[u8]) -> Answer {
    let mut out = [UNWRITTEN];
    let number = find_element_into(file, name, &mut out);
    (number, out[0])
}

/// The number. A list from an item on goes into the caller's `numbers`; these and `out` are of any
/// length.
pub fn list_items_into(
    file: &[u8],
    list: List,
    from: u64,
    numbers: &mut [u64],
    out: &mut [u64],
) -> u32 {
    let function = match list {
        List::Tiles => gvrs_sys::tiles,
        List::Metadata => gvrs_sys::metadata,
        List::Methods => gvrs_sys::methods,
    };
    function(file, from, numbers, out)
}

/// 32 and the number of the metadata record with a name and an ID, 33 and 0, or a refusal.
pub fn find_metadata(file: &[u8], name: &[u8], id: u32) -> Answer {
    let mut out = [UNWRITTEN];
    let number = find_metadata_into(file, name, id, &mut out);
    (number, out[0])
}

/// What `out` holds before a call, so that a number left unwritten shows.
const UNWRITTEN: u64 = 0xdead_beef_dead_beef;
