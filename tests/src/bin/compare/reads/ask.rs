//! Asks both implementations for cells and contents.

use gvrs_tests::library::{self, DIRECTORY, WALK, WALK_WITHOUT_STAGE_9};
use gvrs_tests::prng::Prng;
use gvrs_tests::second::cells::{Cell, Cells, Content, Opened, Spot, NO_COMPRESSOR};

use crate::run::Run;

/// A file that is asked for many cells.
pub struct Asked<'a> {
    pub file: &'a [u8],
    /// An allocation of exactly the file's length, so that valgrind sees a read behind it.
    pub lent: Box<[u8]>,
    pub checked: Opened<'a>,
    without_stage_9: Opened<'a>,
}

/// Numbers that are no route of their own; some are where only low bits are looked at.
const OTHER_NUMBERS: [u32; 14] = [
    3,
    4,
    5,
    32,
    255,
    256,
    257,
    258,
    0x1_0001,
    0x1_0002,
    0x8000_0001,
    0x8000_0002,
    u32::MAX - 1,
    u32::MAX,
];

/// The three routes and another number.
pub fn routes(random: &mut Prng) -> [u32; 4] {
    let other =
        if random.one_in(2) { random.integer().max(3) } else { random.pick(&OTHER_NUMBERS) };
    [DIRECTORY, WALK, WALK_WITHOUT_STAGE_9, other]
}

impl<'a> Asked<'a> {
    pub fn new(file: &'a [u8]) -> Asked<'a> {
        Asked {
            file,
            lent: file.into(),
            checked: Opened::checked(file),
            without_stage_9: Opened::without_stage_9(file),
        }
    }

    /// The second implementation's answer.
    pub fn meaning(&self, spot: Spot, route: u32) -> Cell {
        self.meaning_with(spot, route, NO_COMPRESSOR)
    }

    /// The same for a compressor.
    pub fn meaning_with(&self, spot: Spot, route: u32, compressor: u32) -> Cell {
        match route {
            WALK_WITHOUT_STAGE_9 => self.without_stage_9.cell_with(spot, compressor),
            _ => self.checked.cell_with(spot, compressor),
        }
    }

    /// The second implementation's cells of an element in a tile.
    pub fn cells_with(&self, tile: u64, element: u64, compressor: u32) -> Cells {
        self.checked.cells_with(tile, element, compressor)
    }

    /// Cells of one tile, 0 of a file that the check refuses.
    pub fn tile_cells(&self) -> usize {
        self.checked.tile_cells()
    }
}

impl Run {
    /// Asks for a cell by one route. The answer, if both give the same.
    pub fn cell(&mut self, sort: &str, asked: &Asked, spot: Spot, route: u32) -> Option<Cell> {
        let from_library = library::cell(&asked.lent, spot, route);
        let answer = asked.meaning(spot, route);
        self.reads.asked(sort);
        if from_library != answer.as_numbers() {
            let text = format!(
                "{sort}: {spot:?} by route {route}: library {from_library:x?}, second {answer:x?}"
            );
            self.fault(&text, asked.file);
            return None;
        }
        if let Cell::Stored { type_code, bits, place, .. } = answer {
            self.stored_in_the_file(asked, type_code, bits, place);
        }
        self.reads.cell(&answer, route);
        Some(answer)
    }

    /// The bytes of the file at a stored cell's place are its bits.
    fn stored_in_the_file(&mut self, asked: &Asked, type_code: u8, bits: u32, place: u64) {
        let (place, size) = (place as usize, if type_code == 3 { 2 } else { 4 });
        let bytes = asked.file.get(place..place + size);
        if bytes != Some(&bits.to_le_bytes()[..size]) || (size == 2 && bits > 0xffff) {
            self.fault(&format!("{bits:x} at {place} are not the file's bytes"), asked.file);
        }
    }

    /// As `cell`, where the answer is known. True if it comes.
    pub fn cell_is(
        &mut self,
        sort: &str,
        asked: &Asked,
        spot: Spot,
        route: u32,
        expected: Cell,
    ) -> bool {
        let answer = self.cell(sort, asked, spot, route);
        if answer.is_some_and(|answer| answer != expected) {
            let text =
                format!("{sort}: {spot:?} by route {route}: {answer:x?}, expected {expected:x?}");
            self.fault(&text, asked.file);
        }
        answer == Some(expected)
    }

    /// As `cell_is`, by the three routes and another number.
    pub fn cell_is_by_all(
        &mut self,
        sort: &str,
        asked: &Asked,
        spot: Spot,
        expected: Cell,
        random: &mut Prng,
    ) -> bool {
        let mut all = true;
        for route in routes(random) {
            all &= self.cell_is(sort, asked, spot, route, expected);
        }
        all
    }

    /// Asks for the content of an element in a tile. The answer, if both give the same.
    pub fn content(
        &mut self,
        sort: &str,
        asked: &Asked,
        tile: u64,
        element: u64,
    ) -> Option<Content> {
        let from_library = library::content(&asked.lent, tile, element);
        let answer = asked.checked.content(tile, element);
        self.reads.asked(sort);
        if from_library != answer.as_numbers() {
            let text = format!(
                "{sort}: content of element {element} in tile {tile}: library {from_library:x?}, \
                 second {answer:x?}"
            );
            self.fault(&text, asked.file);
            return None;
        }
        self.reads.content(&answer);
        Some(answer)
    }

    /// As `content`, where the answer is known. True if it comes.
    pub fn content_is(
        &mut self,
        sort: &str,
        asked: &Asked,
        (tile, element): (u64, u64),
        expected: Content,
    ) -> bool {
        let answer = self.content(sort, asked, tile, element);
        if answer.is_some_and(|answer| answer != expected) {
            let text = format!(
                "{sort}: content of element {element} in tile {tile}: {answer:x?}, expected \
                 {expected:x?}"
            );
            self.fault(&text, asked.file);
        }
        answer == Some(expected)
    }
}
