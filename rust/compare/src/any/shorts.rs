//! Short calls with right and wrong plates and rooms.
use crate::call::Call;
use plain::{
    data::{bytes_of, Random},
    images::Library,
    lent::any_room,
    plates::any_plate,
};

/// On an image, which is the library's or a damaged form of it.
pub fn any_short(tree: &Library, image: Vec<u8>, random: &mut Random) -> Call {
    let mut plate = bytes_of(&any_plate(tree, random));
    if random.below(8) == 0 {
        let right = plate.len();
        plate.resize([right - 1, right + 1, right / 2, 0, random.below(40)][random.below(5)], random.byte());
    }
    Call::Short { image, plate, room: any_room(40, random) }
}
