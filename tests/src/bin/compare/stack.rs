//! Every function on a thread with as much stack as `include/gvrs.h` asks for. One that takes more
//! ends the whole run.

use std::thread;

use gvrs_tests::build::build;
use gvrs_tests::library::{self, Lent, DIRECTORY, WALK, WALK_WITHOUT_STAGE_9};
use gvrs_tests::page::SHORT;
use gvrs_tests::prng::Prng;
use gvrs_tests::random_page::random_page;
use gvrs_tests::second::cells::{Opened, Spot, UNPACKED};
use gvrs_tests::second::check::check;
use gvrs_tests::second::compare::{compare, Named};
use gvrs_tests::second::correct::Call;
use gvrs_tests::second::deeds::DOUBTFUL;
use gvrs_tests::second::explain::explain;
use gvrs_tests::second::lay_down::Given;
use gvrs_tests::second::rectangles::Rectangle;
use gvrs_tests::second::says::LISTS;

use crate::explanations;
use crate::fronts;
use crate::lay_downs::draft::Draft;
use crate::packed::holder::Holder;
use crate::packed::trees::deep_comb;
use crate::reads::described::fill;
use crate::run::Run;
use crate::sheets::ask::MoveIn;
use crate::sheets::pages::{empty_page, move_in, Scored, Temper};

/// What the header asks for, and what the thread and the calls before the library's take.
const ASKED: usize = 320 * 1024;
const AROUND: usize = 16 * 1024;

/// A page that can be a score sheet.
const ALL_SCORES: Temper = Temper { absent: 3, refused: 0, wrong: 0 };

pub fn section(run: &mut Run, random: &mut Prng) {
    explanations_of_every_rule(run);
    for _ in 0..run.times(200) {
        let mut page = random_page(random);
        let file = build(&page).bytes;
        run.compare("little stack", &file);
        for element in &mut page.elements {
            element.set_range_and_fill(0, 1, !fill(element));
        }
        let other = build(&page).bytes;
        let (lent, given) = (file.clone(), Draft::at_random(random).given);
        let comb = deep_comb(random).0;
        let deed = if comb.type_code() == SHORT { DOUBTFUL } else { 12 };
        let spot = comb.spots(random)[0].1;
        let compared = compared(&comb);
        let sheet = move_in(random).1;
        let scores = Scored::new(empty_page(random), ALL_SCORES, random);
        let asked = move || {
            let unpacked = ask_packed(&comb, spot);
            (ask(&lent, &other, &given), unpacked, ask_sheets(&sheet, &scores))
        };
        let answer = on_little_stack(asked);
        let packed = [UNPACKED, UNPACKED, UNPACKED, deed, deed, compared, compared];
        if answer != (check(&file).0, packed, [0; 3]) {
            run.fault("little stack: another answer", &file);
        }
    }
}

fn on_little_stack<Answer: Send + 'static>(
    asked: impl FnOnce() -> Answer + Send + 'static,
) -> Answer {
    let thread = thread::Builder::new().stack_size(ASKED + AROUND).spawn(asked);
    thread.expect("a thread is started").join().expect("the thread returns")
}

/// Why a file is refused, of each rule: every search that finds what breaks it.
fn explanations_of_every_rule(run: &mut Run) {
    let files = explanations::broken_files();
    let lent = files.clone();
    let explained =
        on_little_stack(move || lent.iter().map(|it| library::explain(it)).collect::<Vec<_>>());
    for (file, answer) in files.iter().zip(explained) {
        if answer != explain(file).as_numbers() {
            run.fault("little stack: another rule", file);
        }
    }
}

/// A content whose tree is a comb of depth 255: the number of the whole tile, the kind of a cell of
/// it in a rectangle, the deed of that cell and the comparison of its page with itself, each of these
/// three with memory to unpack the tile and without. A cell by each route too.
fn ask_packed(comb: &Holder, spot: Spot) -> [u32; 7] {
    let (file, compressor) = (comb.file(), comb.index());
    for route in [DIRECTORY, WALK, WALK_WITHOUT_STAGE_9] {
        library::cell_with(file, spot, route, compressor);
    }
    let mut cells = vec![0; 400];
    let whole = library::unpack_into(file, comb.place(), compressor, &mut cells, &mut [0; 2]);
    let kind = |memory: &mut [u32]| in_rectangle(file, spot, compressor, memory);
    let deed = |memory: &mut [u32]| deed_of(file, spot, compressor, memory);
    let [short, long] =
        [&mut [][..], &mut [0; 2000][..]].map(|memory| same(file, compressor, memory));
    [whole, kind(&mut cells), kind(&mut []), deed(&mut cells), deed(&mut []), short, long]
}

/// The numbers of a sheet moved in, and of a page with packed tiles moved out, with memory and without.
fn ask_sheets(given: &MoveIn, scores: &Scored) -> [u32; 3] {
    let MoveIn { front, time, sheet } = given;
    let mut file = vec![0; 1 << 20];
    let moved_in = library::sheet_in_into(front, *time, sheet, &mut file, &mut [0]);
    let mut back = vec![0; 1 << 16];
    let mut out = |memory: &mut [u32]| {
        let (file, compressor) = (&scores.built.bytes, scores.compressor);
        library::sheet_out_into(file, compressor, memory, &mut back, &mut [0])
    };
    [moved_in, out(&mut vec![0; 4096]), out(&mut [])]
}

/// The kind of a cell.
fn in_rectangle(file: &[u8], spot: Spot, compressor: u32, memory: &mut [u32]) -> u32 {
    let mut kinds = [0];
    let lent = Lent { memory, kinds: &mut kinds, bits: &mut [0] };
    library::cells_into(file, Rectangle::of_one(spot), compressor, lent, &mut [0]);
    kinds[0]
}

/// The deed's number of a cell.
fn deed_of(file: &[u8], spot: Spot, compressor: u32, memory: &mut [u32]) -> u32 {
    library::deed_into(file, Rectangle::of_one(spot), compressor, memory, &mut [0; 3])
}

/// The second implementation's number for the page compared with itself.
fn compared(comb: &Holder) -> u32 {
    let opened = Opened::checked(comb.file());
    let named = Named { opened: &opened, compressor: comb.index() };
    compare(named, named).as_numbers().0
}

/// The library's, with a memory of any length.
fn same(file: &[u8], compressor: u32, memory: &mut [u32]) -> u32 {
    let page = (file, compressor);
    library::compare_into(page, page, memory, &mut [0; 7], &mut [0; 2])
}

/// All calls of a correction, on a page that they can be done on, as far as its room goes.
fn correct_and_close(file: &[u8]) {
    let mut page = [0; 13];
    library::page_into(file, &mut page);
    let mut buffer = [file, &vec![0; file.len() + 2 * page[7] as usize]].concat();
    let cells = vec![7; page[7] as usize];
    let store = Call::Store { tile: 0, cells };
    let mut n = [file.len() as u64];
    for call in [Call::Open { time: 1 }, store, Call::Remove { tile: 0 }] {
        correct_on(&mut buffer, &mut n, &call);
    }
    let mut plan = vec![0; file.len() / 16];
    let mut out = [0; 2];
    if library::tight_plan_into(&buffer, n[0], &mut plan, &mut out) == 0 {
        plan.truncate(out[1] as usize);
        library::check_plan_into(&buffer, n[0], &plan, &mut [0]);
        correct_on(&mut buffer, &mut n, &Call::Squeeze { plan });
    }
    correct_on(&mut buffer, &mut n, &Call::Close { time: 1 });
}

fn correct_on(buffer: &mut [u8], n: &mut [u64; 1], call: &Call) {
    let mut out = *n;
    if library::correct_into(buffer, n[0], call, &mut out) == 0 {
        *n = out;
    }
}

/// Asks all others, and those with a compressor once more; the check's number. The other page has other
/// fills.
fn ask(file: &[u8], other: &[u8], given: &Given) -> u32 {
    for route in [DIRECTORY, WALK, WALK_WITHOUT_STAGE_9] {
        library::cell(file, Spot { row: 0, column: 0, element: 0 }, route);
    }
    library::content(file, 0, 0);
    let compressor = u32::from(file[file.len() / 2]);
    library::cell_with(file, Spot { row: 0, column: 0, element: 0 }, DIRECTORY, compressor);
    library::unpack_into(file, (0, 0), compressor, &mut [0; 64], &mut [0; 2]);
    in_rectangle(file, Spot { row: 0, column: 0, element: 0 }, compressor, &mut [0; 64]);
    deed_of(file, Spot { row: 0, column: 0, element: 0 }, compressor, &mut [0; 64]);
    let [first, second] = [file, other].map(|file| (file, compressor));
    library::compare_into(first, second, &mut [0; 64], &mut [0; 300], &mut [0; 2]);
    library::page_into(file, &mut [0; 13]);
    library::element_into(file, 0, &mut [0; 4]);
    library::page_said_into(file, &mut [0; 21]);
    library::element_said_into(file, 0, &mut [0; 18]);
    library::m32_write_into(&[u32::MAX, 1 << 31, 1 << 30], &mut [0; 18]);
    library::m32_read_into(&[127, 0x86, 0xfe, 0xfe, 0xfe, 0], &mut [0; 2], &mut [0]);
    library::front_into(&fronts::sample::given(), &mut [0; 400], &mut [0]);
    let Given { front, time, indexes, cells } = given;
    let mut buffer = vec![0; front.len() + 2 * cells.len() + 4096];
    library::lay_down_into(front, *time, indexes, cells, &mut buffer, &mut [0]);
    correct_and_close(file);
    library::list_into(file, &mut [0; 64]);
    library::check_start(file, file.len() as u64);
    library::check_rest(file);
    library::explain(file);
    library::is_identifier(&[b'n'; 32]);
    library::is_utf8("\u{10ffff}".as_bytes());
    library::compare_names(&[b'n'; 32], &[b'n'; 32]);
    library::find_element(file, b"none");
    for list in LISTS {
        library::list_items_into(file, list, 0, &mut [0; 64], &mut [0; 2]);
    }
    library::find_metadata(file, b"none", 0);
    library::check(file).0
}
