//! Descriptions before they are given: what a page and its elements are to be.

use gvrs_tests::prng::Prng;
use gvrs_tests::second::front::Given;

#[derive(Clone)]
pub struct Element {
    pub kind: u32,
    pub continuous: u32,
    pub name: Vec<u8>,
    pub label: Vec<u8>,
    pub description: Vec<u8>,
    pub unit: Vec<u8>,
    pub range: [u32; 8],
}

#[derive(Clone)]
pub struct Draft {
    /// Grid rows and columns, tile rows and columns.
    pub sides: [u32; 4],
    pub flag: u32,
    pub uuid: Vec<u8>,
    pub elements: Vec<Element>,
    pub methods: Vec<Vec<u8>>,
    pub label: Vec<u8>,
}

impl Element {
    pub fn named(name: &str, kind: u32) -> Element {
        let (name, none) = (name.as_bytes().to_vec(), Vec::new);
        Element {
            kind,
            continuous: 0,
            name,
            label: none(),
            description: none(),
            unit: none(),
            range: [0; 8],
        }
    }

    fn texts(&self) -> [&Vec<u8>; 4] {
        [&self.name, &self.label, &self.description, &self.unit]
    }

    /// The bits of the fill as a check tells them: 16 of a Short, the integer of an integer-coded one.
    pub fn fill(&self) -> u32 {
        match self.kind {
            1 => self.range[7],
            3 => self.range[2] % 65_536,
            _ => self.range[2],
        }
    }
}

impl Draft {
    /// One that nothing is wrong with.
    pub fn plain(elements: usize) -> Draft {
        let element = |number| Element::named(&format!("e{number}"), number as u32 % 4);
        Draft {
            sides: [7, 9, 2, 3],
            flag: 1,
            uuid: vec![0x5c; 16],
            elements: (0..elements).map(element).collect(),
            methods: Vec::new(),
            label: Vec::new(),
        }
    }

    pub fn given(&self) -> Given {
        let mut page = self.sides.to_vec();
        page.extend([self.flag, self.label.len() as u32]);
        page.extend(self.methods.iter().map(|method| method.len() as u32));
        let numbers = |element: &Element| {
            let mut numbers = vec![element.kind, element.continuous];
            numbers.extend(element.texts().map(|text| text.len() as u32));
            numbers.extend(element.range);
            numbers
        };
        let mut texts: Vec<u8> = self
            .elements
            .iter()
            .flat_map(|element| element.texts().map(Clone::clone).concat())
            .collect();
        texts.extend(self.methods.concat());
        texts.extend(&self.label);
        Given {
            page,
            uuid: self.uuid.clone(),
            elements: self.elements.iter().flat_map(numbers).collect(),
            texts,
        }
    }
}

/// A description that is mostly right: names of 1 to 8 bytes, so that what stands behind them has every
/// alignment; each type; texts that are empty, short and long.
pub fn random(random: &mut Prng) -> Draft {
    let count = random.pick(&[1, 1, 2, 2, 3, 3, 4, 5, 15, 16, 16, 17, 0]);
    let side = |random: &mut Prng, most: usize| match random.below(60) {
        0 => 0,
        1 => 1 << 31,
        2 => most as u32 + 1,
        3 => most as u32,
        _ => random.between(1, 40) as u32,
    };
    Draft {
        sides: [
            side(random, 65_536),
            side(random, 65_536),
            side(random, 4_096),
            side(random, 4_096),
        ],
        flag: if random.one_in(12) {
            random.pick(&[2, 255, 256, 257, u32::MAX])
        } else {
            random.below(2) as u32
        },
        uuid: random.bytes(16),
        elements: (0..count).map(|number| element(random, number)).collect(),
        methods: (0..random.pick(&[0, 0, 1, 3])).map(|_| text(random)).collect(),
        label: text(random),
    }
}

fn element(random: &mut Prng, number: usize) -> Element {
    let mut name =
        format!("{}{number}", ["a", "bc", "def", "ghij", "k_lmn", "opqrst"][random.below(6)]);
    if random.one_in(200) {
        name.push('_');
    }
    if random.one_in(200) {
        name = "a0".to_string();
    }
    Element {
        kind: if random.one_in(100) {
            random.pick(&[4, 255, 256, 259, u32::MAX])
        } else {
            random.below(4) as u32
        },
        continuous: random.pick(&[0, 1, 2, u32::MAX]),
        name: name.into_bytes(),
        label: text(random),
        description: text(random),
        unit: text(random),
        range: [(); 8].map(|()| random.integer()),
    }
}

fn text(random: &mut Prng) -> Vec<u8> {
    match random.below(40) {
        0 => "über".repeat(random.between(1, 50)).into_bytes(),
        1 => vec![b'x'; random.pick(&[255, 256, 257, 65_535])],
        2 if random.one_in(8) => vec![0xff],
        3..12 => vec![b'm'; random.between(1, 9)],
        _ => Vec::new(),
    }
}
