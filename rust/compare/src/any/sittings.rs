//! Sittings with right and wrong plates and numbers of neighbours.
use super::any_rooms;
use crate::call::Call;
use plain::{data::Random, images::Library, plates::any_plate};

/// With an image, which is the library's or a damaged form of it.
pub fn any_sitting(tree: &Library, image: Vec<u8>, random: &mut Random) -> Call {
    let (plates, k) = (any_plates(tree, random), any_k(random));
    let rooms = any_rooms(plates.len() / tree.wells() * k.min(40) as usize, random);
    Call::Sitting { image, plates, k, rooms }
}

/// Mostly a few, now and then as many as may be or too many or none, or some values that are no whole plate.
fn any_plates(tree: &Library, random: &mut Random) -> Vec<i16> {
    let count = match random.below(16) {
        0 => 0,
        1 => 65 + random.below(64),
        2 => 64,
        3 => 1 + random.below(64),
        _ => 1 + random.below(8),
    };
    let mut values: Vec<i16> = (0..count).flat_map(|_| any_plate(tree, random)).collect();
    if random.below(16) == 0 {
        values.truncate(random.below(values.len() + 1));
    }
    values
}

/// Mostly a right number, 1 to 32; else a wrong one, also one whose lowest bits alone would be right.
fn any_k(random: &mut Random) -> u32 {
    let right = 1 + random.below(32) as u32;
    match random.below(24) {
        0 => 0,
        1 => 33 + random.below(8) as u32,
        2 => right | 1 << (8 + random.below(24)),
        3 => 1,
        4 => 32,
        _ => right,
    }
}
