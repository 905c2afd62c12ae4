//! A sheet there and back, and a page out and back.

use gvrs_tests::prng::Prng;
use gvrs_tests::second::cells::{Cell, Spot};
use gvrs_tests::second::chain::METADATA;
use gvrs_tests::second::check::stages_1_to_9;

use super::ask::MoveIn;
use super::pages::{empty_page, move_in, Scored, Temper};
use crate::deeds::scored::say;
use crate::reads::ask::Asked;
use crate::run::Run;

const THERE_SORT: &str = "sheets there and back";
const OUT_SORT: &str = "pages out and back";

const SAME_BYTES: &str = "a sheet there and back: the same bytes";
const SAME_VALUES: &str = "a page out and back: the same values";
const BECOMES_ABSENT: &str = "a stored tile whose grid cells are all -1 becomes absent";
const STAYS_ABSENT: &str = "an absent tile stays absent";
const PLAIN: &str = "a packed tile becomes plain";
const LOST: &str = "metadata is lost";

pub fn section(run: &mut Run, random: &mut Prng) {
    for thing in [SAME_BYTES, SAME_VALUES, BECOMES_ABSENT, STAYS_ABSENT, PLAIN, LOST] {
        run.sheets.want(thing);
    }
    for _ in 0..run.times(1500) {
        there_and_back(run, random);
        out_and_back(run, random);
    }
}

fn there_and_back(run: &mut Run, random: &mut Prng) {
    let (_, given) = move_in(random);
    let Some(Ok(file)) = run.sheet_in(THERE_SORT, &given) else {
        return run.fault(&format!("{THERE_SORT}: not moved in"), &given.sheet);
    };
    let asked = Asked::new(&file);
    if run.sheet_out_is(THERE_SORT, &asked, u32::from(random.byte()), &Ok(given.sheet)) {
        run.sheets.reached(SAME_BYTES);
    }
}

fn out_and_back(run: &mut Run, random: &mut Prng) {
    let temper = Temper { absent: 3, refused: 0, wrong: 0 };
    let mut page = empty_page(random);
    if random.one_in(2) {
        say(&mut page, &[(b"reader", 4)], random);
    }
    let scored = Scored::new(page, temper, random);
    let asked = Asked::new(&scored.built.bytes);
    let Some(Ok(sheet)) = run.sheet_out(OUT_SORT, &asked, scored.compressor) else {
        return run.fault(&format!("{OUT_SORT}: not moved out"), asked.file);
    };
    let front = scored.built.bytes[..scored.built.starts[0]].to_vec();
    let Some(Ok(again)) = run.sheet_in(OUT_SORT, &MoveIn { front, time: 5, sheet }) else {
        return run.fault(&format!("{OUT_SORT}: not moved in again"), asked.file);
    };
    let compressor = scored.compressor;
    let behind = Asked::new(&again);
    let had_metadata = has_metadata(asked.file);
    let mut same = !has_metadata(&again);
    for tile in 0..scored.page.tile_count() as u32 {
        let spots = spots(&scored, tile);
        let cells: Vec<Cell> =
            spots.iter().map(|spot| asked.checked.cell_with(*spot, compressor)).collect();
        let unread = cells.iter().all(|cell| bits(cell) == 0xffff);
        for (spot, cell) in spots.iter().zip(&cells) {
            let now = behind.checked.cell_with(*spot, compressor);
            same &= bits(&now) == bits(cell);
            same &= matches!(now, Cell::Fill { .. }) == unread;
            same &= matches!(now, Cell::Stored { .. }) == !unread;
        }
        let thing = match cells[0] {
            Cell::Fill { .. } => STAYS_ABSENT,
            Cell::Unpacked { .. } if !unread => PLAIN,
            _ if unread => BECOMES_ABSENT,
            _ => continue,
        };
        run.sheets.reached(thing);
    }
    if !same {
        return run.fault(&format!("{OUT_SORT}: other values"), asked.file);
    }
    run.sheets.reached(SAME_VALUES);
    if had_metadata {
        run.sheets.reached(LOST);
    }
}

fn has_metadata(file: &[u8]) -> bool {
    let passed = stages_1_to_9(file).ok().expect("an accepted file");
    passed.records.iter().any(|record| record.record_type == METADATA)
}

/// The grid cells of a tile.
fn spots(scored: &Scored, tile: u32) -> Vec<Spot> {
    let page = &scored.page;
    let across = page.tiles_across() as u32;
    let (top, left) = (tile / across * page.tile_rows, tile % across * page.tile_columns);
    let (bottom, right) = (
        (top + page.tile_rows).min(page.grid_rows),
        (left + page.tile_columns).min(page.grid_columns),
    );
    let spot =
        |row: u32, column: u32| Spot { row: u64::from(row), column: u64::from(column), element: 0 };
    (top..bottom).flat_map(|row| (left..right).map(move |column| spot(row, column))).collect()
}

fn bits(cell: &Cell) -> u32 {
    match cell {
        Cell::Stored { bits, .. } | Cell::Unpacked { bits, .. } | Cell::Fill { bits, .. } => *bits,
        Cell::Refused(refusal) => panic!("refused {refusal:?}"),
    }
}
