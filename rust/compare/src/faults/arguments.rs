//! Faults of a call's own arguments.
use crate::call::{Call, Rooms};
use plain::{data::Random, images::Library};

/// The call with a fault of this number in an argument that was right.
pub fn with_wrong_argument(mut call: Call, tree: &Library, number: usize, random: &mut Random) -> Call {
    match (&mut call, number) {
        (Call::Start { wells, .. }, 3) => *wells = wrong_number(*wells, 16, random),
        (Call::Start { metric, .. }, 4) => *metric = wrong_number(*metric, 2, random),
        (Call::Sitting { plates, .. }, 14) => *plates = wrong_plates(plates, tree.wells(), random),
        (Call::Within { plate, .. }, 14) => wrong_length(plate, random),
        (Call::Short { plate, .. }, 14) => wrong_length(plate, random),
        (Call::Sitting { k, .. }, 15) => *k = wrong_number(*k, 32, random),
        // fewer would be no room for the image itself
        (Call::Add { image, room, .. }, 16) => *room = image.len() + random.below(*room - image.len()),
        (Call::Start { room, .. } | Call::Filing { room, .. } | Call::List { room, .. } | Call::Short { room, .. }, 16) => {
            *room = fewer(*room, random)
        }
        (Call::Sitting { rooms, .. } | Call::Within { rooms, .. }, 16) => *rooms = too_little(*rooms, random),
        (Call::Start { profile, .. } | Call::Add { profile, .. }, 17) => wrong_length(profile, random),
        (Call::Start { code, .. }, 18) => *code = 0,
        (Call::Add { code, .. }, 18) => *code = [0, tree.records[random.below(tree.records.len())].code][random.below(2)],
        (Call::Add { profile, .. }, 19) => *profile = tree.records[random.below(tree.records.len())].profile.clone(),
        // the library is full
        (Call::Add { .. }, 20) => {}
        _ => unreachable!("{} has no number {number}", call.name()),
    }
    call
}

/// None, one too many, one whose lowest bits alone would be right, or the largest.
fn wrong_number(right: u32, most: u32, random: &mut Random) -> u32 {
    [0, most + 1, right | 1 << (8 + random.below(24)), u32::MAX][random.below(4)]
}

/// One short, one long, none, or twice as long.
fn wrong_length<T: Clone + Default>(slice: &mut Vec<T>, random: &mut Random) {
    let right = slice.len();
    slice.resize([right - 1, right + 1, 0, 2 * right][random.below(4)], T::default());
}

/// No plate, one plate too many, or a plate that is not whole.
fn wrong_plates(plates: &[i16], wells: usize, random: &mut Random) -> Vec<i16> {
    let mut plates = plates.to_vec();
    match random.below(4) {
        0 => plates.clear(),
        1 => plates.resize(65 * wells, 0),
        // a single well is a whole plate of one
        2 if wells > 1 => plates.truncate(plates.len() - 1),
        _ if wells > 1 => plates.push(0),
        _ => plates.resize(1000, 0),
    }
    plates
}

/// One fewer, or any number of them.
fn fewer(room: usize, random: &mut Random) -> usize {
    [room - 1, random.below(room)][random.below(2)]
}

/// One of the slices, or both, with fewer places.
fn too_little(Rooms { codes, distances }: Rooms, random: &mut Random) -> Rooms {
    let less = Rooms { codes: fewer(codes, random), distances: fewer(distances, random) };
    [Rooms { codes, ..less }, Rooms { distances, ..less }, less][random.below(3)]
}
