//! Compressed content of an element, made of its parts, of which each can be set to anything.

use super::huffman::{BitWriter, Tree};
use super::m32;
use super::predict::Predictor;

#[derive(Clone)]
pub struct Packed {
    pub index: u8,
    pub predictor: u8,
    pub seed: i32,
    pub count: u32,
    pub leaves_less_one: u8,
    pub tree: Tree,
    /// The M32 bytes, each with a leaf in the tree.
    pub symbols: Vec<u8>,
    /// What the bits left in the last byte are.
    pub rest: bool,
    pub behind: Vec<u8>,
}

impl Packed {
    /// Of a tile's cells, row by row, by a predictor and the tree that is made for the M32 bytes.
    /// The count field is the number of codes.
    pub fn new(
        cells: &[i32],
        columns: usize,
        predictor: Predictor,
        tree: impl FnOnce(&[u8]) -> Tree,
    ) -> Packed {
        let residuals = predictor.residuals(cells, columns);
        let mut packed = Packed::of_residuals(cells[0], &residuals, tree);
        packed.predictor = predictor.number();
        packed
    }

    /// Of a seed and residuals, as simple differences.
    pub fn of_residuals(seed: i32, residuals: &[i32], tree: impl FnOnce(&[u8]) -> Tree) -> Packed {
        let symbols = m32::write(residuals);
        let tree = tree(&symbols);
        Packed {
            index: 0,
            predictor: 0,
            seed,
            count: residuals.len() as u32,
            leaves_less_one: (tree.symbols().len() - 1) as u8,
            tree,
            symbols,
            rest: false,
            behind: Vec::new(),
        }
    }

    pub fn bytes(&self) -> Vec<u8> {
        let mut head = vec![self.index, self.predictor];
        head.extend(self.seed.to_le_bytes());
        head.extend(self.count.to_le_bytes());
        head.push(self.leaves_less_one);
        let mut bits = BitWriter::behind(head);
        self.tree.store(&mut bits);
        let codes = self.tree.codes();
        for symbol in &self.symbols {
            let code = codes[usize::from(*symbol)].as_ref().expect("a leaf for each symbol");
            code.iter().for_each(|bit| bits.bit(*bit));
        }
        for _ in 0..bits.left() {
            bits.bit(self.rest);
        }
        [bits.bytes(), self.behind.clone()].concat()
    }
}

impl Tree {
    /// Huffman's: the two rarest are joined, again and again.
    pub fn huffman(symbols: &[u8]) -> Tree {
        let times = times(symbols);
        let used = (0..=255).filter(|symbol| times[usize::from(*symbol)] > 0);
        let mut left: Vec<(usize, Tree)> =
            used.map(|symbol| (times[usize::from(symbol)], Tree::Leaf(symbol))).collect();
        loop {
            left.sort_by_key(|(times, _)| std::cmp::Reverse(*times));
            let (times, last) = left.pop().expect("a symbol");
            let Some((more, before)) = left.pop() else {
                return last;
            };
            left.push((times + more, Tree::branch(before, last)));
        }
    }

    /// As even as can be.
    pub fn flat(leaves: &[u8]) -> Tree {
        match leaves {
            [leaf] => Tree::Leaf(*leaf),
            _ => {
                let (left, right) = leaves.split_at(leaves.len() / 2);
                Tree::branch(Tree::flat(left), Tree::flat(right))
            }
        }
    }

    /// Each branch has a leaf, the first nearest to the root: on the left where the bit of its
    /// depth is 0, else on the right.
    pub fn comb(leaves: &[u8], sides: u64) -> Tree {
        let (last, before) = leaves.split_last().expect("a leaf");
        let mut tree = Tree::Leaf(*last);
        for (depth, leaf) in before.iter().enumerate().rev() {
            let leaf = Tree::Leaf(*leaf);
            tree = match sides >> (depth % 64) & 1 {
                0 => Tree::branch(leaf, tree),
                _ => Tree::branch(tree, leaf),
            };
        }
        tree
    }
}

/// The symbols that occur, the most frequent first, then as many others as make `leaves` of them.
pub fn by_frequency(symbols: &[u8], leaves: usize) -> Vec<u8> {
    let times = times(symbols);
    let mut all: Vec<u8> = (0..=255).collect();
    all.sort_by_key(|symbol| std::cmp::Reverse(times[usize::from(*symbol)]));
    let used = times.iter().filter(|times| **times > 0).count();
    all.truncate(leaves.max(used));
    all
}

/// How often each symbol occurs.
fn times(symbols: &[u8]) -> [usize; 256] {
    let mut times = [0; 256];
    for symbol in symbols {
        times[usize::from(*symbol)] += 1;
    }
    times
}
