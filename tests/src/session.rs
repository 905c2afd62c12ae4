//! A page over a sequence of corrections, beside a map from index to bytes: calls at random, and
//! what has to hold of the page behind each of them, whatever made it (Req 03).

use std::collections::BTreeMap;

use crate::plans::{accepted_plan, changed_plan};
use crate::prng::Prng;
use crate::second::cells::{Spot, FILL, STORED, UNPACKED};
use crate::second::chain::{Record, METADATA, METADATA_DIRECTORY, TILE};
use crate::second::check::{check, stages_1_to_4, stages_6_to_8};
use crate::second::correct::{Call, Corrected};
use crate::second::fields::long_at;
use crate::second::geometry::{tile_count, tiles_across, uncompressed_size};
use crate::second::header::Header;
use crate::second::open_page::is_open;
use crate::second::squeeze::kept_of;
use crate::second::unpack::{unpack, Shape};
use crate::worn_page::time;

/// G Table 2.
const FLOAT: u8 = 2;

/// The bytes of each element, L of them, by tile index.
pub type Tiles = BTreeMap<u64, Vec<Vec<u8>>>;

pub struct Session {
    /// The page, and what stands behind it.
    pub buffer: Vec<u8>,
    /// The page's length.
    pub length: usize,
    pub open: bool,
    /// What the tiles have to be.
    pub tiles: Tiles,
    /// As the header was first.
    pub header: Header,
    pub tile_count: u64,
    /// U of each element.
    sizes: Vec<usize>,
    /// The time modified and the time opened.
    times: [u64; 2],
    /// The front as it was first.
    front: Vec<u8>,
    /// Start and bytes of the metadata records and their directory.
    metadata: Vec<(usize, Vec<u8>)>,
    /// Start and bytes of each tile record that no call has changed yet.
    untouched: BTreeMap<u64, (usize, Vec<u8>)>,
}

/// A call with what is lent: as many first bytes of the buffer, and the page's length.
#[derive(Clone, Debug)]
pub struct Asking {
    pub lent: usize,
    pub n: u64,
    pub call: Call,
}

impl Session {
    /// Of an accepted file or an open page, with so much room behind it.
    pub fn new(page: &[u8], room: usize, random: &mut Prng) -> Session {
        let header = stages_1_to_4(page).expect("a header");
        let records = stages_6_to_8(page, &header).expect("records");
        let of_type = |record: &&Record, types: &[u8]| types.contains(&record.record_type);
        let placed = |record: &Record| (record.start, record.bytes.to_vec());
        let metadata = [METADATA, METADATA_DIRECTORY];
        let untouched = records.iter().filter(|record| of_type(record, &[TILE]));
        let mut session = Session {
            buffer: page.to_vec(),
            length: page.len(),
            open: header.time_opened != 0,
            tiles: tiles_of(page),
            tile_count: tile_count(&header),
            sizes: sizes_of(&header),
            times: times_of(page),
            front: page[..header.end].to_vec(),
            metadata: records.iter().filter(|r| of_type(r, &metadata)).map(placed).collect(),
            untouched: untouched.map(|record| (index_of(record), placed(record))).collect(),
            header,
        };
        session.lengthen(room, random);
        session
    }

    pub fn page(&self) -> &[u8] {
        &self.buffer[..self.length]
    }

    /// More room, with anything in it.
    pub fn lengthen(&mut self, room: usize, random: &mut Prng) {
        self.buffer.extend(random.bytes(room));
    }

    /// The bytes of one tile, all elements.
    pub fn tile_bytes(&self) -> usize {
        self.sizes.iter().sum()
    }

    /// The length of a tile's record where every element is uncompressed.
    pub fn tile_record_length(&self) -> usize {
        let sections: usize = self.sizes.iter().map(|size| 4 + size.next_multiple_of(4)).sum();
        (12 + sections + 4).next_multiple_of(8)
    }

    // Calls at random.

    /// Mostly one that can be done. The page's length is right, or one that is refused.
    pub fn asking(&self, random: &mut Prng) -> Asking {
        let call = self.call(random);
        let record = self.tile_record_length();
        let lent = match random.below(10) {
            0 => self.length,
            1 => self.length + random.between(0, record + 24),
            2 => self.length - random.below(2),
            _ => self.buffer.len(),
        };
        let lent = lent.min(self.buffer.len());
        let n = match random.below(24) {
            0 => lent as u64 + random.between(1, 9) as u64,
            1 => random.pick(&[u64::MAX, 1 << 63, 1 << 32, u64::MAX - 7]),
            // Records have a multiple of 8.
            2 => (self.length - random.between(1, 7)) as u64,
            _ => self.length as u64,
        };
        Asking { lent, n, call }
    }

    fn call(&self, random: &mut Prng) -> Call {
        let (open, close) = if self.open { (1, 2) } else { (8, 1) };
        let (store, remove, squeeze) = if self.open { (9, 5, 2) } else { (1, 1, 1) };
        match random.below(open + close + store + remove + squeeze) {
            at if at < open => Call::Open { time: time_or_zero(random) },
            at if at < open + close => Call::Close { time: time_or_zero(random) },
            at if at < open + close + remove => Call::Remove { tile: self.any_tile(random) },
            at if at < open + close + remove + squeeze => {
                Call::Squeeze { plan: self.any_plan(random) }
            }
            _ => Call::Store { tile: self.any_tile(random), cells: self.any_cells(random) },
        }
    }

    /// Mostly one that is accepted. Of a page that is not open any numbers.
    fn any_plan(&self, random: &mut Prng) -> Vec<u64> {
        let Some((end, kept)) = kept_of(self.page()) else {
            let count = random.below(4);
            return (0..count).map(|_| random.long()).collect();
        };
        let plan = accepted_plan(end, &kept, random);
        if random.one_in(6) {
            changed_plan(&plan, random)
        } else {
            plan
        }
    }

    /// A tile that is stored, any tile of the grid, the first or the last; some past them.
    fn any_tile(&self, random: &mut Prng) -> u64 {
        let count = self.tile_count;
        let any = random.below(count as usize) as u64;
        let stored: Vec<u64> = self.tiles.keys().copied().collect();
        match random.below(24) {
            0 => random.pick(&[count, count + 1, 1 << 16, any | 1 << 32, any | 1 << 63, u64::MAX]),
            1 => 0,
            2 => count - 1,
            3..=12 => random.pick_any(&stored).unwrap_or(any),
            _ => any,
        }
    }

    /// Some are one too many or too few.
    fn any_cells(&self, random: &mut Prng) -> Vec<u8> {
        let right = self.tile_bytes();
        let count = match random.below(24) {
            0 => random.pick(&[0, right - 1, right + 1, right + 2, 2 * right]),
            _ => right,
        };
        if random.one_in(6) {
            vec![random.pick(&[0, 0xff]); count]
        } else {
            random.bytes(count)
        }
    }

    // What comes of a call.

    /// Takes over what a call left: the buffer, and a length unless it was refused.
    pub fn take_over(&mut self, asking: &Asking, corrected: &Corrected) {
        let Ok(page) = corrected else {
            return;
        };
        if let Call::Squeeze { plan } = &asking.call {
            self.move_places(plan, page);
        }
        self.buffer[..page.len()].copy_from_slice(page);
        self.length = page.len();
        match &asking.call {
            Call::Open { time } => (self.open, self.times[1]) = (true, *time),
            Call::Close { time } => (self.open, self.times) = (false, [*time, 0]),
            Call::Store { tile, cells } => {
                self.tiles.insert(*tile, self.parted(cells));
                self.untouched.remove(tile);
            }
            Call::Remove { tile } => {
                self.tiles.remove(tile);
                self.untouched.remove(tile);
            }
            Call::Squeeze { .. } => (),
        }
    }

    /// Records keep their bytes at their new starts. The metadata directory has new positions, which
    /// stage 9 judges, and so has the header's reference to it.
    fn move_places(&mut self, plan: &[u64], page: &[u8]) {
        let (_, kept) = kept_of(self.page()).expect("an open page");
        let to: BTreeMap<usize, usize> =
            kept.iter().zip(plan).map(|((old, _), new)| (*old, *new as usize)).collect();
        for (start, bytes) in self.metadata.iter_mut().chain(self.untouched.values_mut()) {
            *start = to[start];
            if bytes[4] == METADATA_DIRECTORY {
                let end = *start + bytes.len();
                bytes.copy_from_slice(&page[*start..end]);
            }
        }
        self.front[64..72].copy_from_slice(&page[64..72]);
    }

    /// The bytes of one tile by their elements.
    pub fn parted(&self, cells: &[u8]) -> Vec<Vec<u8>> {
        let mut cells = cells;
        let mut parts = Vec::new();
        for size in &self.sizes {
            let (own, behind) = cells.split_at(*size);
            parts.push(own.to_vec());
            cells = behind;
        }
        parts
    }

    /// What does not hold of the page and has to.
    pub fn broken(&self) -> Option<&'static str> {
        let page = self.page();
        let checked = if self.open { (5, 0) } else { (0, 0) };
        let rules = [
            (check(page) == checked, "the check's answer"),
            (is_open(page) == self.open, "whether the page is open"),
            (tiles_of(page) == self.tiles, "the tiles are those of the map"),
            (self.metadata.iter().all(|own| stands(page, own)), "metadata kept as it is"),
            (self.untouched.values().all(|own| stands(page, own)), "untouched tiles kept"),
            (times_of(page) == self.times, "the times"),
            (self.front_is_kept(), "the front but for its times, references and checksum"),
        ];
        rules.into_iter().find(|(holds, _)| !holds).map(|(_, rule)| rule)
    }

    /// What the map says of a cell of the grid: its kind and its bits, 0 where it is 11 or 14.
    pub fn cell(&self, spot: Spot, compressor: u32) -> (u32, u32) {
        let (rows, columns) = (self.header.tile_rows, self.header.tile_columns);
        let tile = spot.row / rows * tiles_across(&self.header) + spot.column / columns;
        let element = &self.header.elements[spot.element as usize];
        let Some(contents) = self.tiles.get(&tile) else {
            return (FILL, element.fill);
        };
        let content = &contents[spot.element as usize];
        let inside = (spot.row % rows * columns + spot.column % columns) as usize;
        let size = element.cell_size() as usize;
        let mut bytes = [0; 4];
        if content.len() == self.sizes[spot.element as usize] {
            bytes[..size].copy_from_slice(&content[size * inside..size * (inside + 1)]);
            return (STORED, u32::from_le_bytes(bytes));
        }
        if element.type_code == FLOAT || u32::from(content[0]) != compressor {
            return (11, 0);
        }
        let shape = Shape { rows: rows as usize, columns: columns as usize, short: size == 2 };
        let Some(cells) = unpack(content, shape) else {
            return (14, 0);
        };
        bytes[..size].copy_from_slice(&cells[inside].to_le_bytes()[..size]);
        (UNPACKED, u32::from_le_bytes(bytes))
    }

    fn front_is_kept(&self) -> bool {
        let kept = |at: usize| !(40..64).contains(&at) && !(80..88).contains(&at);
        let fields = 0..self.front.len() - 4;
        fields.filter(|at| kept(*at)).all(|at| self.front[at] == self.buffer[at])
    }
}

fn time_or_zero(random: &mut Prng) -> u64 {
    if random.one_in(20) {
        0
    } else {
        time(random)
    }
}

/// Whether these bytes stand there.
fn stands(page: &[u8], (start, bytes): &(usize, Vec<u8>)) -> bool {
    page.get(*start..start + bytes.len()) == Some(bytes)
}

fn times_of(page: &[u8]) -> [u64; 2] {
    [40, 48].map(|at| long_at(page, at).expect("a header"))
}

fn sizes_of(header: &Header) -> Vec<usize> {
    let size = |cell_size| uncompressed_size(header, cell_size) as usize;
    header.elements.iter().map(|element| size(element.cell_size())).collect()
}

fn index_of(record: &Record) -> u64 {
    record.reader().count().expect("a tile index") as u64
}

/// The tiles of a page that passes stages 1 to 4 and 6 to 8; none of any other.
pub fn tiles_of(page: &[u8]) -> Tiles {
    let Some((header, records)) = stages_1_to_4(page)
        .and_then(|header| stages_6_to_8(page, &header).map(|records| (header, records)))
        .ok()
    else {
        return Tiles::new();
    };
    let mut tiles = Tiles::new();
    for record in records.iter().filter(|record| record.record_type == TILE) {
        let mut reader = record.reader();
        let index = reader.count().expect("a tile index") as u64;
        let mut contents = Vec::new();
        for _ in &header.elements {
            let length = reader.count().expect("a length");
            contents.push(reader.take(length).expect("L bytes").to_vec());
            reader.fill_to_four().expect("padding");
        }
        tiles.insert(index, contents);
    }
    tiles
}

#[cfg(test)]
mod tests {
    use super::*;
    use crate::build::bytes_of;
    use crate::second::cells::Opened;
    use crate::second::correct::correct;
    use crate::second::rectangles::{Area, Rectangle, Rooms};
    use crate::worn_page::{open_worn_page, worn_page};

    /// The editor by itself: over sequences of calls the tiles are those of the map, an open page is
    /// open, and a closed one is accepted and reads as the map says.
    #[test]
    fn the_editor_keeps_the_map() {
        let (mut done, mut refused, mut closed) = (0, [0; 16], 0);
        for seed in 0..800 {
            let mut random = Prng::new(seed);
            let random = &mut random;
            let page = if seed % 4 == 0 { open_worn_page(random) } else { worn_page(random) };
            let room = random.below(600);
            let mut session = Session::new(&bytes_of(&page), room, random);
            assert_eq!(session.broken(), None, "seed {seed}, before any call");
            for number in 0..24 {
                let asking = session.asking(random);
                let corrected = correct(&session.buffer[..asking.lent], asking.n, &asking.call);
                let length = session.length;
                session.take_over(&asking, &corrected);
                let call = format!("seed {seed}, call {number}: {:?}", asking.call);
                assert_eq!(session.broken(), None, "{call}");
                let squeezed = matches!(asking.call, Call::Squeeze { .. });
                assert!(squeezed || session.length >= length, "{call}: a shorter page");
                assert!(!squeezed || session.length <= length, "{call}: a longer page");
                match corrected {
                    Ok(_) => done += 1,
                    Err((number, _)) => refused[number as usize] += 1,
                }
                if !session.open {
                    closed += 1;
                    reads_as_the_map_says(&session, random.byte().into());
                }
            }
        }
        println!("{done} calls done, refused by number {refused:?}, {closed} closed pages read");
        for number in [5, 10, 12, 13, 15] {
            assert!(refused[number] > 0, "never refused {number}");
        }
        assert!(done > 5_000 && closed > 500);
    }

    fn reads_as_the_map_says(session: &Session, compressor: u32) {
        let Header { grid_rows: rows, grid_columns: columns, .. } = session.header;
        let opened = Opened::checked(session.page());
        for element in 0..session.header.elements.len() as u64 {
            let grid = Rectangle { element, row: 0, column: 0, rows, columns };
            if grid.cells() > 5000 {
                return;
            }
            let of_map = |spot| session.cell(spot, compressor);
            let (kinds, bits) = grid.spots().map(of_map).unzip();
            let area = opened.area(grid, compressor, Rooms::of(u64::MAX));
            assert!(area == Area::Read { kinds, bits }, "cells of element {element}");
        }
    }
}
