//! The short call at the lengths where its answer turns, on libraries that have five strains, fewer or more.
use crate::{call::Call, compared::expected, tally::Tallies};
use plain::{
    data::Random,
    images::{any_shape, made, Kind},
};

/// The bytes that it writes.
const ROOM: usize = 40;

pub fn compare(tallies: &mut Tallies, random: &mut Random) -> Result<(), String> {
    for strains in 1..=7 {
        let tree = made(Kind { strains, ..Kind::any(random) }, random);
        let right = 2 * tree.wells();
        let image = any_shape(tree, random).bytes();
        for length in [0, 1, right / 2, right - 1, right, right + 1, right + 2, 2 * right] {
            let plate: Vec<u8> = (0..length).map(|_| random.byte()).collect();
            for room in [0, ROOM - 1, ROOM, ROOM + 1] {
                let number = if length != right { 14 } else { 16 * usize::from(room < ROOM) };
                let call = Call::Short { image: image.clone(), plate: plate.clone(), room };
                let done = expected(&call, number, tallies, random)?;
                if number == 0 && done.memory.front(ROOM)[8 * strains.min(5)..].iter().any(|byte| *byte != 0) {
                    return Err(format!("places that no strain takes are not 0\nthe call: {call}"));
                }
            }
        }
    }
    Ok(())
}
