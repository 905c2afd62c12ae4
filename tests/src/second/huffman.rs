//! Huffman trees and codes (G section 6.2) in bits (G section 8), read and written.

/// G section 8: bits "are stored in increasing order of bit position", byte by byte.
pub struct Bits<'a> {
    bytes: &'a [u8],
    at: usize,
}

impl<'a> Bits<'a> {
    /// From this bit on.
    pub fn from(bytes: &'a [u8], at: usize) -> Bits<'a> {
        Bits { bytes, at }
    }

    pub fn bit(&mut self) -> Option<bool> {
        let byte = self.bytes.get(self.at / 8)?;
        let bit = byte >> (self.at % 8) & 1;
        self.at += 1;
        Some(bit == 1)
    }

    /// Eight bits, the lowest first.
    fn symbol(&mut self) -> Option<u8> {
        let mut symbol = 0;
        for place in 0..8 {
            symbol |= u8::from(self.bit()?) << place;
        }
        Some(symbol)
    }
}

#[derive(Clone)]
pub enum Tree {
    Leaf(u8),
    Branch(Box<Tree>, Box<Tree>),
}

impl Tree {
    pub fn branch(left: Tree, right: Tree) -> Tree {
        Tree::Branch(Box::new(left), Box::new(right))
    }

    /// Req 01: "The tree is stored from its root, branch before its children." `None` where the
    /// bits end, or where it has not so many leaves as `told`.
    pub fn read(bits: &mut Bits, told: usize) -> Option<Tree> {
        // The branches that are not whole yet, the innermost last, each with its left child once
        // that is whole.
        let mut open: Vec<Option<Tree>> = Vec::new();
        let mut leaves = 0;
        // More branches one inside the other have too many leaves in any case.
        while open.len() < told {
            if !bits.bit()? {
                open.push(None);
                continue;
            }
            leaves += 1;
            let mut whole = Tree::Leaf(bits.symbol()?);
            loop {
                match open.pop() {
                    None => return (leaves == told).then_some(whole),
                    Some(Some(left)) => whole = Tree::branch(left, whole),
                    Some(None) => {
                        open.push(Some(whole));
                        break;
                    }
                }
            }
        }
        None
    }

    /// The next symbol: "A bit value of zero is interpreted as a left traversal. A bit value of one
    /// is interpreted as a right traversal." A tree of one leaf spends no bits.
    pub fn next_symbol(&self, bits: &mut Bits) -> Option<u8> {
        let mut node = self;
        loop {
            match node {
                Tree::Leaf(symbol) => return Some(*symbol),
                Tree::Branch(left, right) => node = if bits.bit()? { right } else { left },
            }
        }
    }

    /// The symbols of the leaves, from left to right.
    pub fn symbols(&self) -> Vec<u8> {
        match self {
            Tree::Leaf(symbol) => vec![*symbol],
            Tree::Branch(left, right) => [left.symbols(), right.symbols()].concat(),
        }
    }

    pub fn has_a_symbol_twice(&self) -> bool {
        let mut seen = [false; 256];
        self.symbols().into_iter().any(|symbol| std::mem::replace(&mut seen[symbol as usize], true))
    }

    /// G 6.2's RecursiveStore.
    pub fn store(&self, bits: &mut BitWriter) {
        match self {
            Tree::Branch(left, right) => {
                bits.bit(false);
                left.store(bits);
                right.store(bits);
            }
            Tree::Leaf(symbol) => {
                bits.bit(true);
                bits.symbol(*symbol);
            }
        }
    }

    /// The bits of each symbol's code, if it has a leaf; of the first where it has two.
    pub fn codes(&self) -> Vec<Option<Vec<bool>>> {
        let mut codes = vec![None; 256];
        self.note_codes(&mut Vec::new(), &mut codes);
        codes
    }

    fn note_codes(&self, so_far: &mut Vec<bool>, codes: &mut [Option<Vec<bool>>]) {
        match self {
            Tree::Leaf(symbol) => {
                codes[usize::from(*symbol)].get_or_insert_with(|| so_far.clone());
            }
            Tree::Branch(left, right) => {
                for (child, bit) in [(left, false), (right, true)] {
                    so_far.push(bit);
                    child.note_codes(so_far, codes);
                    so_far.pop();
                }
            }
        }
    }
}

/// Bits in the same order.
pub struct BitWriter {
    bytes: Vec<u8>,
    /// Bits of the last byte that are taken, 8 where there is none.
    taken: usize,
}

impl BitWriter {
    /// Behind these bytes.
    pub fn behind(bytes: Vec<u8>) -> BitWriter {
        BitWriter { bytes, taken: 8 }
    }

    pub fn bit(&mut self, bit: bool) {
        if self.taken == 8 {
            self.bytes.push(0);
            self.taken = 0;
        }
        let last = self.bytes.len() - 1;
        self.bytes[last] |= u8::from(bit) << self.taken;
        self.taken += 1;
    }

    pub fn symbol(&mut self, symbol: u8) {
        for place in 0..8 {
            self.bit(symbol >> place & 1 == 1);
        }
    }

    /// The bytes; what is left of the last one is zeros.
    pub fn bytes(self) -> Vec<u8> {
        self.bytes
    }

    /// Bits of the last byte that are not taken.
    pub fn left(&self) -> usize {
        8 - self.taken
    }
}
