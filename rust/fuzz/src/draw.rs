//! Arguments drawn for a call, of which most suit the image and some do not.
use crate::image;
use plain::{
    data::Random,
    near::{moved, resized},
};

/// A code: none, a held one, or a new one.
pub fn code(image: &[u8], random: &mut Random) -> u32 {
    match random.below(16) {
        0 => 0,
        1 => any_record(image, random, image::code).unwrap_or(1),
        _ => random.number(),
    }
}

/// A profile of the image's wells: a held one, one near a held one, or any.
pub fn profile(image: &[u8], random: &mut Random) -> Vec<i16> {
    match any_record(image, random, image::profile) {
        Some(held) if random.below(8) == 0 => held,
        Some(held) if random.below(4) > 0 => moved(&held, random),
        _ => (0..image::wells(image)).map(|_| random.well()).collect(),
    }
}

/// The same, but now and then of other wells.
pub fn any_profile(image: &[u8], random: &mut Random) -> Vec<i16> {
    let profile = profile(image, random);
    match random.below(12) {
        0 => resized(&profile, random),
        _ => profile,
    }
}

fn any_record<T>(image: &[u8], random: &mut Random, read: impl Fn(&[u8], usize) -> Option<T>) -> Option<T> {
    read(image, random.below(image::strains(image).max(1)))
}

/// Numbers for slices that are lent to be written: so many, and any.
pub fn numbers(count: usize, random: &mut Random) -> Vec<u32> {
    (0..count).map(|_| random.number()).collect()
}

pub fn bytes(count: usize, random: &mut Random) -> Vec<u8> {
    (0..count).map(|_| random.byte()).collect()
}
