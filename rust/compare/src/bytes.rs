//! Every change of one byte of the example image: the check, and each other call on what comes of it.
use crate::{
    call::{Call, Rooms},
    compared::compared,
    tally::Tallies,
};
use plain::{data::Random, images::example, LISTING_BYTES};

pub fn compare(tallies: &mut Tallies, random: &mut Random) -> Result<(), String> {
    let image = example().bytes();
    for at in 0..image.len() {
        for change in 1..=u8::MAX {
            let mut changed = image.clone();
            changed[at] ^= change;
            each_call(changed, tallies, random)?;
        }
    }
    Ok(())
}

fn each_call(image: Vec<u8>, tallies: &mut Tallies, random: &mut Random) -> Result<(), String> {
    let length = image.len();
    // a room for any listing is long, so that an image that is refused before gets none
    let listing = if plain::check(&image).refused() { 0 } else { LISTING_BYTES };
    let calls = [
        Call::Check { image: Vec::new() },
        Call::Add { image: Vec::new(), stated: 0, code: 105, profile: vec![12], room: length + 10 },
        Call::Filing { image: Vec::new(), room: length },
        Call::List { image: Vec::new(), room: listing },
        Call::Sitting { image: Vec::new(), plates: vec![7, -3], k: 3, rooms: Rooms::of(6) },
        Call::Within { image: Vec::new(), plate: vec![7], radius: 4, rooms: Rooms::of(4) },
        Call::Short { image: Vec::new(), plate: vec![7, 0], room: 40 },
    ];
    for call in calls {
        compared(&call.with_image(image.clone()), tallies, random)?;
    }
    Ok(())
}
