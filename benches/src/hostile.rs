//! The check of files made to be costly, of up to 16 MiB: lists and metadata records in orders of
//! many kinds, against CRC32C of as many bytes, byte by byte. That time is the unit.

use gvrs_tests::build::bytes_of;
use gvrs_tests::keys::{
    alike, alike_reversed, clustered, colliding, grouped, page_of, stepped, Key,
};
use gvrs_tests::page::{Body, Page, Record};
use gvrs_tests::prng::Prng;

use crate::shapes::CEILING;
use crate::units::{Units, ANY};

/// Accepted, and stage 9.
const ACCEPTED: u32 = 0;
const DIRECTORIES: u32 = 9;

/// A line for each file.
pub fn measure(units: &mut Units) {
    lists(units);
    keys_by_id(units);
    keys_by_name(units);
    keys_by_parts(units);
    keys_alike(units);
}

fn measure_file(units: &mut Units, shape: String, file: &[u8], answer: u32) {
    assert!(file.len() <= CEILING, "{shape}: too long");
    units.measure_alone(&shape, ANY, file, answer);
}

// Orders.

#[derive(Clone, Copy)]
pub enum Order {
    Ascending,
    Descending,
    Shuffled,
    /// Blocks of so many that descend, and are shuffled within.
    Blocks(usize),
    /// Every one of so many from the first on, then from the second on, and so on.
    Strided(usize),
    /// Blocks of so many, each a heap from which the last goes far up again where the first is taken.
    Heaped(usize),
}

impl Order {
    const ALL: [Order; 7] = [
        Order::Ascending,
        Order::Descending,
        Order::Shuffled,
        Order::Blocks(32_768),
        Order::Blocks(4_096),
        Order::Strided(86),
        Order::Heaped(4_096),
    ];

    pub fn name(self) -> String {
        match self {
            Order::Ascending => "ascending".into(),
            Order::Descending => "descending".into(),
            Order::Shuffled => "shuffled".into(),
            Order::Blocks(length) => format!("blocks of {length} descending"),
            Order::Strided(step) => format!("every {step}th"),
            Order::Heaped(length) => format!("heaps of {length}"),
        }
    }

    /// The numbers below `count` in that order.
    pub fn of(self, count: usize) -> Vec<usize> {
        let mut prng = Prng::new(20);
        let mut numbers: Vec<usize> = (0..count).collect();
        match self {
            Order::Ascending => {}
            Order::Descending => numbers.reverse(),
            Order::Shuffled => prng.shuffle(&mut numbers),
            Order::Blocks(length) => {
                numbers.chunks_mut(length).for_each(|block| prng.shuffle(block));
                numbers = numbers.chunks(length).rev().flatten().copied().collect();
            }
            Order::Strided(step) => {
                numbers = (0..step).flat_map(|at| (at..count).step_by(step)).collect();
            }
            Order::Heaped(length) => {
                let whole = heap_of(length);
                for block in numbers.chunks_mut(length) {
                    let first = block[0];
                    let heap =
                        if block.len() < length { heap_of(block.len()) } else { whole.clone() };
                    block.iter_mut().zip(heap).for_each(|(number, at)| *number = first + at);
                }
            }
        }
        numbers
    }
}

/// The numbers below `count` as a heap, the largest first. It is made from its end: each number in turn
/// comes to the top, those below it on a path move down by one, and the last of them becomes the new
/// last leaf, as high up on the path as the leaf's parent allows.
fn heap_of(count: usize) -> Vec<usize> {
    let mut heap = vec![0];
    for number in 1..count {
        let parent = (number - 1) / 2;
        let mut at = (0..parent).find(|at| heap[*at] < heap[parent]).unwrap_or(parent);
        heap.push(heap[at]);
        while at > 0 {
            heap[at] = heap[(at - 1) / 2];
            at = (at - 1) / 2;
        }
        heap[0] = number;
    }
    heap
}

// Lists.

const LISTED: [Order; 3] = [Order::Ascending, Order::Descending, Order::Shuffled];

fn lists(units: &mut Units) {
    for order in LISTED {
        let file = free_file((CEILING - 1024) / 28, order);
        measure_file(units, format!("free records, list {}", order.name()), &file, ACCEPTED);
    }
    for order in LISTED {
        let keys = by_id(1, Order::Ascending);
        let file = bytes_of(&keys_listed(&keys, order));
        measure_file(units, format!("one name, list {}", order.name()), &file, ACCEPTED);
    }
    measure_file(units, "free and metadata records in turn".into(), &in_turn(), ACCEPTED);
}

/// Free records of 16 bytes.
pub fn free_file(count: usize, order: Order) -> Vec<u8> {
    let mut page = Page::plain();
    let first = page.records.len();
    page.records.extend((0..count).map(|_| Record::new(Body::Free(16))));
    let listed = order.of(count).iter().map(|number| first + number).collect();
    page.records.push(Record::new(Body::FileSpaceDirectory(listed)));
    bytes_of(&page)
}

pub fn in_turn() -> Vec<u8> {
    let count = (CEILING - 1024) / 76;
    let listed = Order::Shuffled.of(count);
    let keys: Vec<Key> = listed.iter().map(|id| (b"m".to_vec(), *id as u32)).collect();
    let mut page = page_of(&keys, &[]);
    let records = std::mem::take(&mut page.records);
    let mut metadata = Vec::new();
    let mut free = Vec::new();
    for record in records {
        match record.body {
            Body::Metadata(_) => {
                free.push(page.records.len());
                page.records.push(Record::new(Body::Free(16)));
                metadata.push(page.records.len());
                page.records.push(record);
            }
            Body::TileDirectory(_) => page.records.push(record),
            _ => {}
        }
    }
    let of = |numbers: &[usize]| listed.iter().map(|number| numbers[*number]).collect();
    page.records.push(Record::new(Body::MetadataDirectory(of(&metadata))));
    page.records.push(Record::new(Body::FileSpaceDirectory(of(&free))));
    bytes_of(&page)
}

// Metadata records.

/// How many metadata records with names of so many bytes fit.
pub fn fitting(length: usize) -> usize {
    let size = |count: usize| {
        let keys: Vec<Key> = (0..count).map(|id| (vec![b'n'; length], id as u32)).collect();
        bytes_of(&page_of(&keys, &Order::Ascending.of(count))).len()
    };
    let none = size(0);
    (CEILING - none) * 16 / (size(16) - none)
}

pub fn keys_file(keys: &[Key]) -> Vec<u8> {
    bytes_of(&keys_listed(keys, Order::Ascending))
}

/// Metadata records of these keys, listed in an order.
pub fn keys_listed(keys: &[Key], order: Order) -> Page {
    page_of(keys, &order.of(keys.len()))
}

/// One name of so many bytes.
pub fn by_id(length: usize, order: Order) -> Vec<Key> {
    order.of(fitting(length)).iter().map(|id| (vec![b'm'; length], *id as u32)).collect()
}

fn keys_by_id(units: &mut Units) {
    for length in [1, 7, 32] {
        for order in Order::ALL {
            let file = keys_file(&by_id(length, order));
            let name = format!("one name of {length}, IDs {}", order.name());
            measure_file(units, name, &file, ACCEPTED);
        }
    }
}

fn keys_by_name(units: &mut Units) {
    let ends: [(&str, fn(usize, usize) -> Vec<u8>); 2] =
        [("", alike), ("reversed ", alike_reversed)];
    for length in [5, 7, 8, 16, 24, 32] {
        for order in Order::ALL {
            for (end, name_of) in ends {
                let numbers = order.of(fitting(length));
                let key = |number: &usize| (name_of(length, *number), 7);
                let keys: Vec<Key> = numbers.iter().map(key).collect();
                let name = format!("names of {length}, ends {end}{}", order.name());
                measure_file(units, name, &keys_file(&keys), ACCEPTED);
            }
        }
    }
}

/// Names that sorting by one part behind the other, each of few bytes, tells apart late.
fn keys_by_parts(units: &mut Units) {
    let kinds: [(&str, fn(usize, usize) -> Vec<u8>); 4] = [
        ("in twelve clusters", clustered),
        ("parting here and there", stepped),
        ("parting in twos at the end", |length, number| grouped(2, length, number)),
        ("parting in 62s at the end", |length, number| grouped(62, length, number)),
    ];
    for length in [7, 12, 16, 32] {
        for order in [Order::Shuffled, Order::Blocks(4_096)] {
            for (kind, name_of) in kinds {
                let numbers = order.of(fitting(length));
                let key = |number: &usize| (name_of(length, *number), 7);
                let keys: Vec<Key> = numbers.iter().map(key).collect();
                let name = format!("names of {length} {kind}, {}", order.name());
                measure_file(units, name, &keys_file(&keys), ACCEPTED);
            }
        }
    }
}

fn keys_alike(units: &mut Units) {
    let file = keys_file(&colliding(200_000));
    measure_file(units, "200,000 pairs on one place of a table".into(), &file, ACCEPTED);
    for order in [Order::Ascending, Order::Shuffled, Order::Blocks(4_096)] {
        let mut keys = by_id(1, order);
        let last = keys.len() - 1;
        keys[last] = keys[last / 2].clone();
        let name = format!("one twin at the end, IDs {}", order.name());
        measure_file(units, name, &keys_file(&keys), DIRECTORIES);
        let others: [(&str, fn(u32) -> u32); 2] =
            [("every pair twice", |id| id / 2), ("half of the pairs alike", |id| id.max(170_000))];
        for (what, id_of) in others {
            let keys = by_id(1, order).into_iter().map(|(name, id)| (name, id_of(id)));
            let keys: Vec<Key> = keys.collect();
            let name = format!("{what}, IDs {}", order.name());
            measure_file(units, name, &keys_file(&keys), DIRECTORIES);
        }
    }
    let same: Vec<Key> = (0..fitting(32)).map(|_| (vec![b'n'; 32], 7)).collect();
    measure_file(units, "all pairs alike, names of 32".into(), &keys_file(&same), DIRECTORIES);
}
