//! Any call: its arguments mostly right, or where an answer turns; now and then wrong.
mod adds;
mod shorts;
mod sittings;
mod starts;
mod withins;
pub use adds::any_add;
pub use shorts::any_short;
pub use sittings::any_sitting;
pub use starts::any_start;
pub use withins::any_within;

use crate::call::{Call, Rooms};
use plain::{data::Random, lent::any_room, LISTING_BYTES};

pub fn any_filing(image: Vec<u8>, random: &mut Random) -> Call {
    Call::Filing { room: any_room(image.len(), random), image }
}

pub fn any_list(image: Vec<u8>, random: &mut Random) -> Call {
    Call::List { room: any_room(LISTING_BYTES, random), image }
}

/// A code, 0 now and then.
fn any_code(random: &mut Random) -> u32 {
    match random.below(12) {
        0 => 0,
        1 => 1 + random.below(4) as u32,
        _ => random.number(),
    }
}

/// Where each slice needs so many places: both are given as many, or one of them more than enough.
fn any_rooms(needed: usize, random: &mut Random) -> Rooms {
    let (room, enough) = (any_room(needed, random), needed + random.below(64));
    let (codes, distances) = [(room, enough), (enough, room), (room, room)][random.below(3)];
    Rooms { codes, distances }
}
