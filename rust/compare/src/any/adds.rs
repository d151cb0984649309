//! Adds of right and wrong strains.
use super::any_code;
use crate::call::Call;
use plain::{
    data::Random,
    images::Library,
    layout::growth,
    lent::any_room,
    near::{halfway, moved, resized},
};

/// To an image, which is the library's or a damaged form of it.
pub fn any_add(tree: &Library, image: Vec<u8>, random: &mut Random) -> Call {
    let room = any_room(image.len() + growth(tree.wells()), random);
    let stated = any_stated(image.len(), room, random);
    Call::Add { code: any_new_code(tree, random), profile: any_profile(tree, random), image, stated, room }
}

/// Now and then one that is taken.
fn any_new_code(tree: &Library, random: &mut Random) -> u32 {
    match random.below(12) {
        0 => tree.records[random.below(tree.records.len())].code,
        _ => any_code(random),
    }
}

/// The length told of an image that has `length` bytes in a buffer that has `room`: mostly the right one.
fn any_stated(length: usize, room: usize, random: &mut Random) -> usize {
    match random.below(32) {
        0 => length.saturating_sub(1),
        1 => length + 1,
        2 => random.below(length + 1),
        3 => room + 1 + random.below(2),
        4 => random.word() as usize,
        _ => length,
    }
}

/// Mostly a profile for which the choice of a parent is a close one; now and then a held one, or one of wrong length.
fn any_profile(tree: &Library, random: &mut Random) -> Vec<i16> {
    let own = &tree.records[random.below(tree.records.len())];
    match random.below(12) {
        0 => own.profile.clone(),
        1 => resized(&own.profile, random),
        2 => own.profile.iter().map(|_| random.well()).collect(),
        3..6 => halfway(&own.profile, &tree.records[own.parent].profile),
        _ => moved(&own.profile, random),
    }
}
