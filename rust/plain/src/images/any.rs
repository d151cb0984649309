//! Any library that is accepted.
use super::{deepest, made, Data, Kind, Library, Order};
use crate::data::Random;

impl Kind {
    /// Mostly a small library, where one damage shows well, or of a size where a list of 32 may hold all strains or not; now and then a
    /// large one.
    pub fn any(random: &mut Random) -> Self {
        let strains = match random.below(1000) {
            0 => 1023 + random.below(2),
            1..10 => 61 + random.below(964),
            10..500 => 1 + random.below(12),
            _ => 1 + random.below(60),
        };
        Kind {
            strains,
            wells: 1 + random.below(16),
            metric: 1 + random.below(2) as u8,
            data: [Data::Uniform, Data::Clustered, Data::Species, Data::Tied][random.below(4)],
            codes: if random.below(4) == 0 { Order::Ascending } else { Order::Random },
        }
    }
}

/// As it was built or in another shape, as its records came or shuffled. Now and then the deepest there is.
pub fn any_library(random: &mut Random) -> Library {
    let tree = if random.below(50) == 0 { deepest() } else { made(Kind::any(random), random) };
    any_shape(tree, random)
}

/// The same strains, in a tree and an order that may be others.
pub fn any_shape(mut tree: Library, random: &mut Random) -> Library {
    if random.below(2) == 0 {
        tree = tree.rehung(random);
    }
    if random.below(2) == 0 {
        tree = tree.shuffled(random);
    }
    tree
}
