//! Metadata records whose pairs of name and ID are hard to tell apart: near-equal names, many
//! records in several orders, pairs on one place of a table, and each time one twin at the very end.

use gvrs_tests::build::bytes_of;
use gvrs_tests::keys::{
    alike, alike_reversed, clustered, colliding, grouped, page_of, stepped, Key,
};
use gvrs_tests::prng::Prng;
use gvrs_tests::second::check::Answer;

use crate::run::Run;

const SORT: &str = "pairs of name and ID";

const REFUSED: Answer = (9, 16);

pub fn section(run: &mut Run, random: &mut Prng) {
    near_equal(run, random);
    for count in [1, 2, 4_096, 22_528, 22_529, 32_768, 32_769, 70_000] {
        let count = run.times(count);
        many(run, random, count);
    }
    let count = run.times(200_000);
    distinct(run, random, colliding(count));
}

/// Asks for the keys in this order, listed in any: both accept. With the last key's twin before it
/// they refuse.
fn distinct(run: &mut Run, random: &mut Prng, mut keys: Vec<Key>) {
    run.expect(SORT, "no two alike", &file(random, &keys), (0, 0));
    if keys.len() < 2 {
        return;
    }
    let last = keys.len() - 1;
    keys[last] = keys[random.below(last)].clone();
    run.expect(SORT, "one twin at the end", &file(random, &keys), REFUSED);
}

fn file(random: &mut Prng, keys: &[Key]) -> Vec<u8> {
    let mut listed: Vec<usize> = (0..keys.len()).collect();
    random.shuffle(&mut listed);
    bytes_of(&page_of(keys, &listed))
}

/// Names of each length that differ in one byte at each position, and in their lengths; each with
/// two IDs.
fn near_equal(run: &mut Run, random: &mut Prng) {
    let mut keys: Vec<Key> = Vec::new();
    for length in 1..=32 {
        for id in [0, 7] {
            keys.push((vec![b'n'; length], id));
            for changed in 0..length {
                for letter in [b'N', b'o'] {
                    let mut name = vec![b'n'; length];
                    name[changed] = letter;
                    keys.push((name, id));
                }
            }
        }
    }
    for _ in 0..run.times(5) {
        random.shuffle(&mut keys);
        distinct(run, random, keys.clone());
    }
}

/// So many records: by their IDs, by names of five kinds, each pair twice, all but a few alike.
fn many(run: &mut Run, random: &mut Prng, count: usize) {
    let name = vec![b'm'; random.between(1, 32)];
    let ids: Vec<Key> = (0..count).map(|id| (name.clone(), id as u32)).collect();
    distinct(run, random, ids.clone());
    distinct(run, random, ids.iter().rev().cloned().collect());
    type NameOf = fn(usize, usize) -> Vec<u8>;
    let kinds: [(usize, NameOf); 5] = [
        (5, alike),
        (5, alike_reversed),
        (6, clustered),
        (6, stepped),
        (6, |length, number| grouped(3, length, number)),
    ];
    for (least, name_of) in kinds {
        let length = random.between(least, 32);
        let mut names: Vec<Key> = (0..count).map(|number| (name_of(length, number), 7)).collect();
        random.shuffle(&mut names);
        distinct(run, random, names);
    }
    if count > 1 {
        let mut twice: Vec<Key> = ids.iter().map(|(name, id)| (name.clone(), id / 2)).collect();
        random.shuffle(&mut twice);
        run.expect(SORT, "every pair twice", &file(random, &twice), REFUSED);
        let few = ids.iter().map(|(name, id)| (name.clone(), (*id).min(2))).collect::<Vec<Key>>();
        let expected = if count > 3 { REFUSED } else { (0, 0) };
        run.expect(SORT, "all but a few alike", &file(random, &few), expected);
    }
}
