//! Listings of so many bytes that their length takes both values of an answer word.
use crate::{
    call::Call,
    compared::expected,
    listing::{largest, longest},
    tally::Tallies,
};
use plain::{data::Random, LISTING_BYTES};

pub fn compare(tallies: &mut Tallies, random: &mut Random) -> Result<(), String> {
    for tree in [largest(random), longest(random)] {
        let call = Call::List { image: tree.bytes(), room: LISTING_BYTES };
        let length = expected(&call, 0, tallies, random)?.answer.length();
        if length <= u16::MAX.into() {
            return Err(format!("{length} bytes are no long listing\nthe call: {call}"));
        }
    }
    Ok(())
}
