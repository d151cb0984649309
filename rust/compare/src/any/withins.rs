//! Searches within a radius, with right and wrong plates.
use super::any_rooms;
use crate::call::Call;
use plain::{data::Random, distance, images::Library, level, near::resized, plates::any_plate};

/// In an image, which is the library's or a damaged form of it.
pub fn any_within(tree: &Library, image: Vec<u8>, random: &mut Random) -> Call {
    let mut plate = any_plate(tree, random);
    let radius = any_radius(tree, &plate, random);
    if random.below(16) == 0 {
        plate = resized(&plate, random);
    }
    Call::Within { image, plate, radius, rooms: any_rooms(tree.records.len(), random) }
}

/// Mostly one where a strain comes in, or where a node's children are measured or just not; or an end of some range, or any.
fn any_radius(tree: &Library, plate: &[i16], random: &mut Random) -> u32 {
    let node = &tree.records[random.below(tree.records.len())];
    let d = distance::lists(tree.metric, &node.profile, plate);
    let close = |random: &mut Random| d.saturating_add(random.below(3) as u32);
    match random.below(16) {
        0 => 0,
        1 => random.below(8) as u32,
        2 => 1_048_559 + random.below(2) as u32,
        3 => u32::MAX - random.below(2) as u32,
        // the radius and a reach have more than 32 bits
        4 => u32::MAX - random.below(1 << 21) as u32,
        5 => random.number(),
        6 => random.below(1 << 21) as u32,
        7..11 => close(random).saturating_sub(1),
        _ => close(random).saturating_sub(1 + level::reach(node.level)),
    }
}
