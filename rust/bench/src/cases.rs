//! The libraries that searches are timed in, each with plates from where its strains come from.
use plain::{
    data::Random,
    images::{drawn, Data, Kind, Library, Order, Source},
};

pub struct Case {
    pub kind: Kind,
    pub tree: Library,
    pub image: Vec<u8>,
    /// 64 plates.
    pub plates: Vec<i16>,
}

pub fn cases(sizes: &[usize], random: &mut Random) -> Vec<Case> {
    let mut cases = Vec::new();
    for &strains in sizes {
        let widths: &[_] = if strains == 1024 { &[(4, 1), (16, 1), (4, 2), (16, 2)] } else { &[(4, 1), (16, 1)] };
        for &(wells, metric) in widths {
            for data in [Data::Uniform, Data::Species, Data::Tied] {
                cases.push(Case::new(Kind { strains, wells, metric, data, codes: Order::Random }, random));
            }
        }
    }
    cases
}

impl Case {
    fn new(kind: Kind, random: &mut Random) -> Self {
        let source = Source::new(kind, random);
        let tree = drawn(kind, &source, random);
        let plates = (0..64).flat_map(|_| source.draw(random)).collect();
        Case { kind, image: tree.bytes(), tree, plates }
    }

    /// The first of its plates.
    pub fn first(&self, count: usize) -> &[i16] {
        &self.plates[..count * self.kind.wells]
    }

    /// The searches in one run: enough for a clock.
    pub fn repeats(&self) -> usize {
        1 + 512 / self.kind.strains
    }
}
