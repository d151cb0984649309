//! Plates for a library.
use crate::{
    data::Random,
    images::Library,
    near::{halfway, moved},
};

/// Mostly a plate for which the order of strains or a step of the walk is a close one.
pub fn any_plate(tree: &Library, random: &mut Random) -> Vec<i16> {
    let mut strain = || &tree.records[random.below(tree.records.len())];
    let (own, other) = (strain(), strain());
    match random.below(10) {
        0 => own.profile.clone(),
        1 => own.profile.iter().map(|_| random.well()).collect(),
        2 => own.profile.iter().map(|_| if random.below(2) == 0 { i16::MIN } else { i16::MAX }).collect(),
        3 => halfway(&own.profile, &tree.records[own.parent].profile),
        4 => halfway(&own.profile, &other.profile),
        5..8 => own.profile.iter().map(|well| well.saturating_add(random.below(5) as i16 - 2)).collect(),
        _ => moved(&own.profile, random),
    }
}
