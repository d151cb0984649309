//! Lengths around the right ones: each slice one short, just right and one long, with all the others.
use crate::{
    call::{Call, Rooms},
    compared::compared,
    tally::Tallies,
};
use plain::{
    data::Random,
    images::{any_library, Library},
    layout::growth,
    LISTING_BYTES,
};

/// Every call that is given an image, on one library. The short call has its own lengths.
pub fn compare(tallies: &mut Tallies, random: &mut Random) -> Result<(), String> {
    let tree = any_library(random);
    let whole = tree.bytes();
    let mut calls = adds(&tree, random);
    for length in around(whole.len()) {
        let mut image = whole.clone();
        image.resize(length, 0);
        calls.push(Call::Check { image: image.clone() });
        calls.extend(around(length).map(|room| Call::Filing { image: image.clone(), room }));
        calls.extend(around(LISTING_BYTES).map(|room| Call::List { image: image.clone(), room }));
        calls.extend(searches(&tree, &image, random));
    }
    calls.iter().try_for_each(|call| compared(call, tallies, random).map(|_| ()))
}

fn adds(tree: &Library, random: &mut Random) -> Vec<Call> {
    let (image, wells) = (tree.bytes(), tree.wells());
    let mut calls = Vec::new();
    for stated in around(image.len()) {
        for room in around(image.len()).into_iter().chain(around(image.len() + growth(wells))) {
            for profile in around(wells).map(|length| values(length, random)) {
                calls.push(Call::Add { image: image.clone(), stated, code: random.number(), profile, room });
            }
        }
    }
    calls
}

fn searches(tree: &Library, image: &[u8], random: &mut Random) -> Vec<Call> {
    let (wells, n, k) = (tree.wells(), tree.records.len(), 3);
    let mut calls = Vec::new();
    for plates in around(2 * wells).map(|length| values(length, random)) {
        calls.extend(rooms(2 * k).map(|rooms| Call::Sitting { image: image.to_vec(), plates: plates.clone(), k: k as u32, rooms }));
    }
    for plate in around(wells).map(|length| values(length, random)) {
        let radius = random.below(1_000_000) as u32;
        calls.extend(rooms(n).map(|rooms| Call::Within { image: image.to_vec(), plate: plate.clone(), radius, rooms }));
    }
    calls
}

fn around(length: usize) -> [usize; 3] {
    [length - 1, length, length + 1]
}

/// Each length of the one slice with each of the other.
fn rooms(places: usize) -> impl Iterator<Item = Rooms> {
    around(places).into_iter().flat_map(move |codes| around(places).map(|distances| Rooms { codes, distances }))
}

fn values(count: usize, random: &mut Random) -> Vec<i16> {
    (0..count).map(|_| random.well()).collect()
}
