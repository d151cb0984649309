//! Starts with right and wrong arguments.
use super::any_code;
use crate::call::Call;
use plain::{data::Random, layout::length, lent::any_room};

pub fn any_start(random: &mut Random) -> Call {
    let (wells, metric, code) = (any_number(16, random), any_number(2, random), any_code(random));
    let profile = any_profile(wells, random);
    Call::Start { wells, metric, code, room: any_room(length(1, profile.len()), random), profile }
}

/// Mostly one that fits the wells; where these are wrong, it fits their lowest bits.
fn any_profile(wells: u32, random: &mut Random) -> Vec<i16> {
    let count = if random.below(8) == 0 { random.below(20) } else { wells as usize % 256 };
    (0..count).map(|_| random.well()).collect()
}

/// Mostly a right number, 1 to `most`; else a wrong one, also one whose lowest bits alone would be right.
fn any_number(most: usize, random: &mut Random) -> u32 {
    let right = 1 + random.below(most) as u32;
    match random.below(16) {
        0 => 0,
        1 => most as u32 + 1,
        2 => right | 1 << (8 + random.below(24)),
        3 => random.number(),
        _ => right,
    }
}
