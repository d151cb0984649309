//! Where profiles of a wanted kind come from: a library's own, and plates like them.
use super::{Data, Kind};
use crate::data::Random;

pub enum Source {
    /// So many wells, each anywhere in its range.
    Anywhere(usize),
    /// Around one of these centres.
    Centres(Vec<Vec<i16>>),
    /// A strain of one of these species.
    Species(Vec<Vec<i16>>),
    /// So many wells, each one of so many values from the lowest on.
    Few { wells: usize, values: usize, lowest: i16 },
}

impl Source {
    pub fn new(kind: Kind, random: &mut Random) -> Self {
        match kind.data {
            Data::Uniform => Source::Anywhere(kind.wells),
            Data::Clustered => Source::Centres((0..kind.strains / 16 + 2).map(|_| centre(kind.wells, random)).collect()),
            Data::Species => Source::Species((0..kind.strains.isqrt()).map(|_| anywhere(kind.wells, random)).collect()),
            Data::Tied => few(kind, random),
        }
    }

    pub fn draw(&self, random: &mut Random) -> Vec<i16> {
        match self {
            Source::Anywhere(wells) => anywhere(*wells, random),
            // a stray now and then, so that there is no end of different profiles
            Source::Centres(centres) if random.below(16) == 0 => anywhere(centres[0].len(), random),
            Source::Centres(centres) => around(&centres[random.below(centres.len())], random),
            Source::Species(species) => strain(&species[random.below(species.len())], random),
            Source::Few { wells, values, lowest } => (0..*wells).map(|_| lowest + random.below(*values) as i16).collect(),
        }
    }
}

fn anywhere(wells: usize, random: &mut Random) -> Vec<i16> {
    (0..wells).map(|_| random.even_well()).collect()
}

/// One centre in four is a corner, where distances become as large as they can.
fn centre(wells: usize, random: &mut Random) -> Vec<i16> {
    match random.below(8) {
        0 => vec![i16::MIN; wells],
        1 => vec![i16::MAX; wells],
        _ => (0..wells).map(|_| random.well()).collect(),
    }
}

/// A profile near a centre, at most 32 away in each well and mostly nearer.
fn around(centre: &[i16], random: &mut Random) -> Vec<i16> {
    let most = 1 << random.below(6);
    centre.iter().map(|well| well.saturating_add(random.below(2 * most + 1) as i16 - most as i16)).collect()
}

fn strain(species: &[i16], random: &mut Random) -> Vec<i16> {
    let mut moved = |well: i16| {
        let most = well.unsigned_abs() as usize * 3 / 100 + 8;
        well.saturating_add(random.below(2 * most + 1) as i16 - most as i16)
    };
    species.iter().map(|well| moved(*well)).collect()
}

/// As few values as give twice as many profiles as are needed, around 0 or at an end of the range.
fn few(kind: Kind, random: &mut Random) -> Source {
    let enough = |values: &usize| values.saturating_pow(kind.wells as u32) >= 2 * kind.strains;
    let values = (2..).find(enough).expect("some number is large enough");
    let lowest = [i16::MIN, i16::MAX - (values as i16 - 1), -(values as i16) / 2][random.below(3)];
    Source::Few { wells: kind.wells, values, lowest }
}
