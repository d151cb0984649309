//! Calls that are accepted, with just the room that they need.
use crate::call::{Call, Name, Rooms};
use plain::{
    data::{bytes_of, Random},
    images::Library,
    layout::length,
    LISTING_BYTES,
};

pub fn right_call(name: Name, tree: &Library, random: &mut Random) -> Call {
    let (image, n, w) = (tree.bytes(), tree.records.len(), tree.wells());
    let (code, profile) = new_strain(tree, random);
    let mut plates = |count: usize| (0..count * w).map(|_| random.even_well()).collect::<Vec<_>>();
    match name {
        Name::Check => Call::Check { image },
        Name::Start => Call::Start { wells: w as u32, metric: tree.metric as u32, code, profile, room: length(1, w) },
        Name::Add => Call::Add { stated: image.len(), room: length(n + 1, w), image, code, profile },
        Name::Filing => Call::Filing { room: image.len(), image },
        Name::List => Call::List { room: LISTING_BYTES, image },
        Name::Sitting => Call::Sitting { image, plates: plates(3), k: 5, rooms: Rooms::of(15) },
        Name::Within => Call::Within { image, plate: plates(1), radius: 1000, rooms: Rooms::of(n) },
        Name::Short => Call::Short { image, plate: bytes_of(&plates(1)), room: 40 },
    }
}

/// A code and a profile that the library does not hold.
fn new_strain(tree: &Library, random: &mut Random) -> (u32, Vec<i16>) {
    loop {
        let code = random.number();
        let profile: Vec<_> = (0..tree.wells()).map(|_| random.even_well()).collect();
        if code != 0 && tree.records.iter().all(|v| v.code != code && v.profile != profile) {
            return (code, profile);
        }
    }
}
