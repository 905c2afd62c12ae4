//! Why a file is refused: `gvrs_explain` against two checks of the same file and a pass over its
//! bytes, which is the unit of `units`, CRC32C of them byte by byte. Files that are accepted, files
//! whose fault stands at their end, one of each stage, and files made to be costly, up to 16 MiB.
//! Times are of the processor.

use std::hint::black_box;
use std::time::Duration;

use gvrs_tests::build::{bytes_of, make_checksums_good};
use gvrs_tests::keys::{alike, Key};
use gvrs_tests::library;
use gvrs_tests::page::{Body, Page, Record};
use gvrs_tests::second::crc32c::crc32c;

use crate::hostile::{by_id, fitting, free_file, in_turn, keys_file, keys_listed, Order};
use crate::milliseconds;
use crate::shapes::{self, CEILING};

/// Two checks and a pass.
const BOUND: f64 = 1.0;

const ROUNDS: usize = 7;

/// Where the header has what is changed here.
const TIME_OPENED: usize = 48;
const FREE_REFERENCE: usize = 56;
const METADATA_REFERENCE: usize = 64;
const TILES_REFERENCE: usize = 80;

/// The width of a shape's name.
const SHAPE: usize = 62;

/// Prints a line for each file. True if none takes more than its bound.
pub fn measure() -> bool {
    println!(
        "{:SHAPE$} {:>4} {:>11} {:>11} {:>10} {:>6} {:>11} {:>7}",
        "why refused", "rule", "explained", "gvrs_check", "pass", "checks", "of 2 and 1", "at most"
    );
    let mut worst = Worst { ratio: 0.0, shape: String::new() };
    accepted(&mut worst);
    stages_1_to_8(&mut worst);
    tile_directory(&mut worst);
    lists(&mut worst);
    keys(&mut worst);
    println!("most of two checks and a pass: {:.2}, {}", worst.ratio, worst.shape);
    if worst.ratio > BOUND {
        println!("FAULT: an explanation takes more than two checks and a pass");
    }
    worst.ratio <= BOUND
}

struct Worst {
    ratio: f64,
    shape: String,
}

impl Worst {
    /// Prints one line. The library must name the rule.
    fn measure(&mut self, shape: &str, rule: u64, file: &[u8]) {
        assert!(file.len() <= CEILING, "{shape}: too long");
        assert_eq!(library::explain(file).1[1], rule, "{shape}: another rule");
        let [mut explained, mut check, mut pass] = [Duration::MAX; 3];
        // In turn, so that other work on the machine falls on all.
        for _ in 0..ROUNDS {
            explained = explained.min(time(|| {
                black_box(library::explain(black_box(file)));
            }));
            check = check.min(time(|| {
                black_box(library::check(black_box(file)));
            }));
            pass = pass.min(time(|| {
                black_box(crc32c(black_box(file)));
            }));
        }
        let checks = explained.as_secs_f64() / check.as_secs_f64();
        let ratio = explained.as_secs_f64() / (2 * check + pass).as_secs_f64();
        let [explained, check, pass] = [explained, check, pass].map(milliseconds);
        println!(
            "{shape:SHAPE$} {rule:>4} {explained:>8.2} ms {check:>8.2} ms {pass:>7.2} ms \
             {checks:>6.2} {ratio:>11.2} {BOUND:>7.2}"
        );
        if ratio > self.ratio {
            (self.ratio, self.shape) = (ratio, shape.to_string());
        }
    }
}

#[repr(C)]
struct Timespec {
    seconds: i64,
    nanoseconds: i64,
}

extern "C" {
    fn clock_gettime(clock: i32, time: *mut Timespec) -> i32;
}

/// CLOCK_THREAD_CPUTIME_ID of Linux.
const OF_THE_THREAD: i32 = 3;

fn processor_time() -> Duration {
    let mut time = Timespec { seconds: 0, nanoseconds: 0 };
    // The structure is alive for the whole call.
    let failed = unsafe { clock_gettime(OF_THE_THREAD, &mut time) };
    assert_eq!(failed, 0, "the clock of the processor is read");
    Duration::new(time.seconds as u64, time.nanoseconds as u32)
}

fn time(task: impl FnOnce()) -> Duration {
    let start = processor_time();
    task();
    processor_time() - start
}

// Files that are accepted.

fn accepted(worst: &mut Worst) {
    worst.measure("few large tiles", 0, &shapes::few_large_tiles(true));
    worst.measure("65,536 tiles of 56 cells", 0, &shapes::many_small_tiles(true));
    worst.measure("65,536 tiles of 56 cells, checksums off", 0, &shapes::many_small_tiles(false));
    worst.measure("65,536 tiles of a cell of 16 elements", 0, &shapes::tiles_of_one_cell(16));
    worst.measure("65,536 tiles of a cell", 0, &shapes::tiles_of_one_cell(1));
    worst.measure("directory of 65,536 tiles, none stored", 0, &shapes::wide_directory());
    worst.measure("4,000 metadata records", 0, &shapes::many_metadata(true));
    worst.measure("descriptions", 0, &shapes::descriptions("e"));
    worst.measure("8,000,000 compression methods", 0, &shapes::many_methods());
    worst.measure("580,000 free records", 0, &shapes::free_in_order(580_000));
    worst.measure("free and metadata records in turn", 0, &in_turn());
    worst.measure("metadata records of one name", 0, &keys_file(&by_id(1, Order::Ascending)));
    worst.measure("names of 7, alike but for the end, shuffled", 0, &keys_file(&alike_names()));
}

/// Those whose check takes longest.
fn alike_names() -> Vec<Key> {
    let numbers = Order::Shuffled.of(fitting(7));
    numbers.iter().map(|number| (alike(7, *number), 7)).collect()
}

// Stages 1 to 8.

fn stages_1_to_8(worst: &mut Worst) {
    let methods = shapes::many_methods();
    let with = |at: usize, bytes: &[u8]| changed(&methods, at, bytes);
    worst.measure("8,000,000 methods, no mark", 2, &with(0, b"G"));
    worst.measure("8,000,000 methods, another version", 4, &with(13, &[3]));
    worst.measure("8,000,000 methods, raster space", 12, &with(129, &[3]));
    worst.measure("8,000,000 methods, opened", 32, &with(TIME_OPENED, &[1]));
    let mut page = Page::plain();
    page.methods = vec![Vec::new(); 8_000_000];
    page.label = vec![b'e', 0xff];
    worst.measure("8,000,000 methods, the product label behind them", 26, &bytes_of(&page));
    let tiles = shapes::many_small_tiles(true);
    let last = last_record(&tiles);
    worst.measure("the last of 65,537 records: type", 37, &changed(&tiles, last + 4, &[9]));
    let end = tiles.len() - 1;
    let mut turned = tiles.clone();
    turned[end] ^= 1;
    worst.measure("the last of 65,537 records: checksum", 38, &turned);
    worst.measure("the last tile: index", 40, &changed(&tiles, last + 8, &70_000u32.to_le_bytes()));
    let sixteen = shapes::tiles_of_one_cell(16);
    let fields_end = sixteen.len() - 4 - 4;
    let long = changed(&sixteen, fields_end - 4, &3u32.to_le_bytes());
    worst.measure("the last length of 1,048,576: more than uncompressed", 44, &long);
    let mut described = shapes::descriptions("e");
    let place = last_description(&described);
    described[place] = 0xff;
    make_checksums_good(&mut described);
    worst.measure("the last byte of 16 MiB of descriptions", 48, &described);
    let free = shapes::free_in_order(580_000);
    let mut more = free.clone();
    more.extend([0; 8]);
    worst.measure("580,000 free records, then no record", 33, &more);
}

/// The last byte of the last metadata record's description.
fn last_description(file: &[u8]) -> usize {
    let directory = last_record(file);
    let content = directory + 8;
    let count = integer(file, content) as usize;
    let entry = content + 4 + (count - 1) * (15 + b"Deed".len());
    let record = long(file, entry) as usize;
    // Behind the name, the ID, the data type and the content's length.
    let length_at = record + 2 + b"Deed".len() + 4 + 1 + 4;
    let length = u16::from_le_bytes([file[length_at], file[length_at + 1]]);
    length_at + 2 + usize::from(length) - 1
}

// Stage 9.

fn tile_directory(worst: &mut Worst) {
    let tiles = shapes::many_small_tiles(true);
    let first = long(&tiles, TILES_REFERENCE) as usize + 24;
    let last = first + 4 * 65_535;
    worst.measure("no tile directory", 49, &changed(&tiles, TILES_REFERENCE, &[0; 8]));
    worst.measure("the last tile is not listed", 58, &changed(&tiles, last, &[0; 4]));
    let reverse = shapes::tiles_in_reverse();
    let first = long(&reverse, TILES_REFERENCE) as usize + 24;
    let not_listed = changed(&reverse, first, &[0; 4]);
    worst.measure("in reverse, the last tile record is not listed", 58, &not_listed);
    let none = shapes::wide_directory();
    let first = long(&none, TILES_REFERENCE) as usize + 24;
    let given = changed(&none, first + 8 * 65_535, &[8]);
    worst.measure("none of 65,536 stored, the last listed", 59, &given);
    let mut page = all_but_the_last();
    let mut file = bytes_of(&page);
    let first = long(&file, TILES_REFERENCE) as usize + 24;
    file = changed(&file, first + 4 * 65_535, &[1]);
    worst.measure("65,535 of 65,536 stored, the other listed", 59, &file);
    page.records.push(Record::new(Body::Raw(5, vec![0; 8])));
    worst.measure("another tile directory at the end", 50, &bytes_of(&page));
}

/// 65,536 tiles of a cell, of which all but the last are stored.
fn all_but_the_last() -> Page {
    let mut page = Page::of_sides([256, 256], [1, 1]);
    for index in 0..65_535 {
        page.records.push(shapes::tile(index, 4));
    }
    page
}

fn lists(worst: &mut Worst) {
    for order in [Order::Ascending, Order::Descending, Order::Shuffled] {
        let free = free_file((CEILING - 1024) / 28, order);
        let what = format!("free records, list {}", order.name());
        let entry = entry_of_last(&free, FREE_REFERENCE, 12);
        let other = changed(&free, entry + 8, &24u32.to_le_bytes());
        worst.measure(&format!("{what}, the last not"), 75, &other);
        let keys = by_id(1, Order::Ascending);
        let named = bytes_of(&keys_listed(&keys, order));
        let what = format!("metadata of one name, list {}", order.name());
        let entry = entry_of_last(&named, METADATA_REFERENCE, 16);
        let other = changed(&named, entry + 11, &u32::MAX.to_le_bytes());
        worst.measure(&format!("{what}, the last not"), 66, &other);
    }
    let free = free_file((CEILING - 1024) / 28, Order::Shuffled);
    let count = long(&free, FREE_REFERENCE) as usize;
    let fewer = integer(&free, count) - 1;
    worst.measure(
        "free records, an entry less than there is room for",
        73,
        &changed(&free, count, &fewer.to_le_bytes()),
    );
    worst.measure("free records, no entry", 70, &changed(&free, count, &[0; 4]));
    let both = in_turn();
    let entry = entry_of_last(&both, FREE_REFERENCE, 12);
    let other = changed(&both, entry + 8, &24u32.to_le_bytes());
    worst.measure("free and metadata records in turn, the last free not", 75, &other);
    let entry = entry_of_last(&both, METADATA_REFERENCE, 16);
    let other = changed(&both, entry + 15, &[1]);
    worst.measure("free and metadata records in turn, the last metadata not", 66, &other);
}

fn keys(worst: &mut Worst) {
    for order in [Order::Ascending, Order::Shuffled, Order::Blocks(4_096)] {
        let mut keys = by_id(1, order);
        let last = keys.len() - 1;
        keys[last] = keys[last / 2].clone();
        let shape = format!("one twin at the end, IDs {}", order.name());
        worst.measure(&shape, 67, &keys_file(&keys));
    }
    let same: Vec<Key> = (0..fitting(32)).map(|_| (vec![b'n'; 32], 7)).collect();
    worst.measure("all pairs alike, names of 32", 67, &keys_file(&same));
    let mut names = alike_names();
    names.pop();
    names.pop();
    let mut page = keys_listed(&names, Order::Ascending);
    page.records.push(Record::new(Body::Free(16)));
    worst.measure("names of 7, alike, shuffled; a free record not listed", 74, &bytes_of(&page));
    let last = names.len() - 1;
    names[last] = names[last / 2].clone();
    worst.measure("names of 7, alike, shuffled; one twin at the end", 67, &keys_file(&names));
}

// Bytes.

/// With bytes changed, and checksums made good.
fn changed(file: &[u8], at: usize, bytes: &[u8]) -> Vec<u8> {
    let mut file = file.to_vec();
    file[at..at + bytes.len()].copy_from_slice(bytes);
    make_checksums_good(&mut file);
    file
}

/// Where the last record starts.
fn last_record(file: &[u8]) -> usize {
    let mut start = 16;
    loop {
        let next = start + integer(file, start) as usize;
        if next >= file.len() {
            return start;
        }
        start = next;
    }
}

/// Where the entry with the greatest position starts, of a list with entries of so many bytes.
fn entry_of_last(file: &[u8], reference: usize, width: usize) -> usize {
    let content = long(file, reference) as usize;
    let entries = (0..integer(file, content) as usize).map(|number| content + 4 + width * number);
    entries.max_by_key(|entry| long(file, *entry)).expect("a list")
}

fn integer(file: &[u8], at: usize) -> u32 {
    u32::from_le_bytes(file[at..at + 4].try_into().expect("four bytes"))
}

fn long(file: &[u8], at: usize) -> u64 {
    u64::from_le_bytes(file[at..at + 8].try_into().expect("eight bytes"))
}
