//! Contents that are malformed, each in one way, in files that the check accepts.

use gvrs_tests::build::make_checksums_good;
use gvrs_tests::prng::Prng;
use gvrs_tests::second::huffman::Tree;
use gvrs_tests::second::m32;
use gvrs_tests::second::pack::by_frequency;

use super::contents::{good, Good};
use super::holder::{whole, Expected, Holder};
use crate::run::Run;

const SORT: &str = "malformed contents";
const PADDING_SORT: &str = "malformed contents, the missing byte in the padding";

/// A way to make a content malformed, or nothing where it can't be done to it.
type Fault = fn(&mut Good, &mut Prng) -> Option<Vec<u8>>;

const FAULTS: [(&str, Fault); 16] = [
    ("fewer than 11 bytes", fewer_than_11),
    ("ends in the tree", ends_in_the_tree),
    ("ends in the codes", ends_in_the_codes),
    ("ends one byte early", one_byte_early),
    ("another predictor", another_predictor),
    ("one leaf more than told", |good, _| leaves(good, -1)),
    ("one leaf less than told", |good, _| leaves(good, 1)),
    ("another number of leaves", other_leaves),
    ("a symbol twice, used", |good, random| twice(good, true, random)),
    ("a symbol twice, not used", |good, random| twice(good, false, random)),
    ("a sixth byte of magnitude", sixth_byte),
    ("a magnitude of 2147483648", |good, random| magnitude(good, 1 << 31, random)),
    ("a magnitude above 2147483648", above),
    ("a wrong count near a right one", near_count),
    ("a wrong count, negative", negative_count),
    ("a wrong count, any", any_count),
];

const IN_PADDING: [&str; 3] = [
    "1 byte missing that stands in the padding",
    "2 bytes missing that stand in the padding",
    "3 bytes missing that stand in the padding",
];

pub fn section(run: &mut Run, random: &mut Prng) {
    for (name, fault) in FAULTS {
        let thing = format!("14: {name}");
        run.packed.want(&thing);
        for _ in 0..run.times(150) {
            one(run, &thing, fault, random);
        }
    }
    for predictor in (3..=255).step_by(if run.small { 50 } else { 1 }) {
        let mut good = good(random);
        good.packed.predictor = predictor;
        refused(run, "14: every other predictor", &good, &good.packed.bytes(), random);
    }
    for thing in IN_PADDING {
        run.packed.want(thing);
    }
    for _ in 0..run.times(600) {
        in_the_padding(run, random);
    }
    for _ in 0..run.times(12) {
        every_cut(run, random);
    }
}

fn one(run: &mut Run, thing: &str, fault: Fault, random: &mut Prng) {
    let mut good = good(random);
    let Some(content) = fault(&mut good, random) else {
        return;
    };
    if content.len() < good.uncompressed() {
        refused(run, thing, &good, &content, random);
    }
}

fn refused(run: &mut Run, thing: &str, good: &Good, content: &[u8], random: &mut Prng) {
    let holder = Holder::new(good.type_code, good.tile, content, random);
    if whole(run, SORT, thing, &holder, Expected::Refused(14), random) {
        run.packed.reached(thing);
    }
}

fn fewer_than_11(good: &mut Good, random: &mut Prng) -> Option<Vec<u8>> {
    Some(good.packed.bytes()[..random.between(1, 10)].to_vec())
}

/// Bits of the tree: a branch takes one, a leaf nine.
fn tree_bits(tree: &Tree) -> usize {
    10 * tree.symbols().len() - 1
}

fn ends_in_the_tree(good: &mut Good, random: &mut Prng) -> Option<Vec<u8>> {
    let whole_bytes = (88 + tree_bits(&good.packed.tree) - 1) / 8;
    Some(good.packed.bytes()[..random.between(11, whole_bytes)].to_vec())
}

fn ends_in_the_codes(good: &mut Good, random: &mut Prng) -> Option<Vec<u8>> {
    let (content, first) = (good.packed.bytes(), (88 + tree_bits(&good.packed.tree)).div_ceil(8));
    (first < content.len()).then(|| content[..random.between(first, content.len() - 1)].to_vec())
}

fn one_byte_early(good: &mut Good, _: &mut Prng) -> Option<Vec<u8>> {
    let mut content = good.packed.bytes();
    content.pop();
    Some(content)
}

fn another_predictor(good: &mut Good, random: &mut Prng) -> Option<Vec<u8>> {
    good.packed.predictor = random.between(3, 255) as u8;
    Some(good.packed.bytes())
}

fn leaves(good: &mut Good, more: i8) -> Option<Vec<u8>> {
    let told = &mut good.packed.leaves_less_one;
    *told = told.checked_add_signed(more)?;
    Some(good.packed.bytes())
}

fn other_leaves(good: &mut Good, random: &mut Prng) -> Option<Vec<u8>> {
    let told = random.byte();
    let right = std::mem::replace(&mut good.packed.leaves_less_one, told);
    (told != right).then(|| good.packed.bytes())
}

/// A leaf more with a symbol that has one; the count of leaves is right.
fn twice(good: &mut Good, used: bool, random: &mut Prng) -> Option<Vec<u8>> {
    let packed = &mut good.packed;
    let mut leaves = packed.tree.symbols();
    if !used {
        let unused: Vec<u8> = (0..=255).filter(|symbol| !leaves.contains(symbol)).collect();
        leaves.push(random.pick_any(&unused)?);
    }
    let again = if used { random.pick(&packed.symbols) } else { *leaves.last()? };
    leaves.push(again);
    random.shuffle(&mut leaves);
    packed.tree = Tree::flat(&leaves);
    packed.leaves_less_one = u8::try_from(leaves.len() - 1).ok()?;
    Some(packed.bytes())
}

/// Puts a code in the place of one of the numbers. The count stays that of the numbers.
fn put_code(good: &mut Good, code: &[u8], random: &mut Prng) -> Option<Vec<u8>> {
    let packed = &mut good.packed;
    let numbers = good.cells.len() - 1;
    let some = [0, numbers - 1, random.below(numbers)];
    let at = random.pick(&some);
    let (before, _) = m32::read(&packed.symbols, at);
    let (with, _) = m32::read(&packed.symbols, at + 1);
    let [start, end] = [before, with].map(|numbers| m32::write(&numbers).len());
    packed.symbols.splice(start..end, code.iter().copied());
    packed.count = numbers as u32;
    let leaves = by_frequency(&packed.symbols, 1);
    packed.leaves_less_one = (leaves.len() - 1) as u8;
    packed.tree =
        if random.one_in(2) { Tree::huffman(&packed.symbols) } else { Tree::flat(&leaves) };
    Some(packed.bytes())
}

fn sixth_byte(good: &mut Good, random: &mut Prng) -> Option<Vec<u8>> {
    let mut code = vec![random.pick(&[127, 129])];
    let small = random.one_in(2);
    code.extend((0..5).map(|_| if small { 0x80 } else { random.byte() | 0x80 }));
    code.push(random.byte() & 0x7f);
    put_code(good, &code, random)
}

/// Five bytes of payload that hold a magnitude of at least 2147483648, of either sign.
fn magnitude(good: &mut Good, magnitude: u64, random: &mut Prng) -> Option<Vec<u8>> {
    let held = magnitude - 270_549_247;
    let mut code = vec![random.pick(&[127, 129])];
    for digit in (0..5).rev() {
        let more = if digit > 0 { 0x80 } else { 0 };
        code.push((held >> (7 * digit)) as u8 & 0x7f | more);
    }
    put_code(good, &code, random)
}

fn above(good: &mut Good, random: &mut Prng) -> Option<Vec<u8>> {
    let most = (1u64 << 35) - 1 + 270_549_247;
    let some = [
        (1 << 31) + 1,
        1 << 32,
        (1 << 32) + 1,
        (1 << 32) - 1,
        (1 << 32) + 127,
        most,
        (1 << 31) + random.long() % (1 << 31),
        (1 << 31) + random.long() % (1 << 34),
    ];
    magnitude(good, random.pick(&some), random)
}

/// A count that is neither the number of numbers nor that of M32 bytes.
fn count(good: &mut Good, wrong: u32) -> Option<Vec<u8>> {
    let right = [good.cells.len() as u32 - 1, good.packed.symbols.len() as u32];
    good.packed.count = wrong;
    (!right.contains(&wrong)).then(|| good.packed.bytes())
}

fn near_count(good: &mut Good, random: &mut Prng) -> Option<Vec<u8>> {
    let (cells, bytes) = (good.cells.len() as u32, good.packed.symbols.len() as u32);
    let content = good.packed.bytes().len() as u32;
    let near = [cells, cells - 2, bytes + 1, bytes - 1, 0, content, content - 11, 1];
    count(good, random.pick(&near))
}

fn negative_count(good: &mut Good, random: &mut Prng) -> Option<Vec<u8>> {
    let (cells, bytes) = (good.cells.len() as u32, good.packed.symbols.len() as u32);
    let high = 1 << 31;
    let negative = [
        high | (cells - 1),
        high | bytes,
        (cells - 1).wrapping_neg(),
        bytes.wrapping_neg(),
        u32::MAX,
        high,
    ];
    count(good, random.pick(&negative))
}

fn any_count(good: &mut Good, random: &mut Prng) -> Option<Vec<u8>> {
    let right = good.packed.count;
    let any = [random.integer(), right ^ 1 << random.below(32), right << 8, right.swap_bytes()];
    count(good, random.pick(&any))
}

/// Reading 1: "a bit past byte L is missing even if padding stands there".
fn in_the_padding(run: &mut Run, random: &mut Prng) {
    let good = good(random);
    let content = good.packed.bytes();
    let missing = random.between(1, 3);
    let length = content.len() - missing;
    if length % 4 == 0 || length.next_multiple_of(4) < content.len() {
        return;
    }
    let mut holder = Holder::new(good.type_code, good.tile, &content[..length], random);
    let at = holder.content_start() as usize + length;
    holder.built.bytes[at..at + missing].copy_from_slice(&content[length..]);
    make_checksums_good(&mut holder.built.bytes);
    let thing = IN_PADDING[missing - 1];
    if whole(run, PADDING_SORT, thing, &holder, Expected::Refused(14), random) {
        run.packed.reached(thing);
    }
}

/// A content cut behind each of its bytes.
fn every_cut(run: &mut Run, random: &mut Prng) {
    let good = good(random);
    let content = good.packed.bytes();
    if content.len() > 120 {
        return;
    }
    for length in 1..content.len() {
        refused(run, "14: cut behind each byte", &good, &content[..length], random);
    }
}
