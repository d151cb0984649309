//! Made-up libraries of a wanted kind.
use super::{Library, Source};
use crate::data::Random;
use std::{collections::HashSet, hash::Hash};

#[derive(Clone, Copy, Debug)]
pub enum Data {
    /// Wells over their whole range.
    Uniform,
    /// Some sixteen strains around each of a few centres.
    Clustered,
    /// As a reader meets them: about as many species as each has strains, so 32 of 32 in the largest library. A species' wells lie anywhere
    /// in their range. A strain's are its species', each moved by at most 3 in a hundred of it and 8 more.
    Species,
    /// Wells of so few values that many strains lie equally far from a plate.
    Tied,
}

/// The order in which codes come in.
#[derive(Clone, Copy, Debug)]
pub enum Order {
    Random,
    Ascending,
}

#[derive(Clone, Copy, Debug)]
pub struct Kind {
    pub strains: usize,
    pub wells: usize,
    pub metric: u8,
    pub data: Data,
    pub codes: Order,
}

pub fn made(kind: Kind, random: &mut Random) -> Library {
    drawn(kind, &Source::new(kind, random), random)
}

/// With profiles from a source of that kind.
pub fn drawn(kind: Kind, source: &Source, random: &mut Random) -> Library {
    let codes = codes(kind, random);
    let profiles = different(kind.strains, || source.draw(random));
    Library::built(kind.metric, &codes.into_iter().zip(profiles).collect::<Vec<_>>())
}

fn codes(kind: Kind, random: &mut Random) -> Vec<u32> {
    let mut codes = different(kind.strains, || random.number().max(1));
    match kind.codes {
        Order::Random => {}
        Order::Ascending => codes.sort_unstable(),
    }
    codes
}

/// The first `count` drawn, equal ones skipped.
fn different<T: Clone + Eq + Hash>(count: usize, mut draw: impl FnMut() -> T) -> Vec<T> {
    let (mut held, mut drawn) = (HashSet::new(), Vec::new());
    while drawn.len() < count {
        let one = draw();
        if held.insert(one.clone()) {
            drawn.push(one);
        }
    }
    drawn
}
