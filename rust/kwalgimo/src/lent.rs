//! The calls on lent memory. Any bytes, numbers and lengths are allowed: what does not fit is refused by its number in document 01, and
//! then nothing that was lent is changed.
use crate::{
    answer::{answer, long_value, no_value, one_value, short as short_answer},
    door,
    refusal::{Reason, Refusal},
};

/// The check: accepts a library image, or refuses it.
pub fn check(image: &[u8]) -> Result<(), Refusal> {
    no_value(door::check(image))
}

/// Starts a library with one strain: writes its image at the front of the buffer and gives the image's length.
pub fn start(wells: u32, metric: u32, code: u32, profile: &[i16], buffer: &mut [u8]) -> Result<usize, Refusal> {
    one_value(door::start(wells, metric, code, profile, buffer))
}

/// Adds a strain to the image that is the first `image_len` bytes of the buffer, and gives the new length.
pub fn add(buffer: &mut [u8], image_len: usize, code: u32, profile: &[i16]) -> Result<usize, Refusal> {
    one_value(door::add(buffer, image_len, code, profile))
}

/// Filing: writes the image's filing form at the front of the buffer and gives its length, which is the image's.
pub fn file(image: &[u8], buffer: &mut [u8]) -> Result<usize, Refusal> {
    one_value(door::file(image, buffer))
}

/// The bytes that every listing fits into.
pub const LISTING_BYTES: usize = 147_456;

/// The listing: writes the library as text, in ASCII, at the front of the room and gives the text's length. The room needs
/// [`LISTING_BYTES`], also where the listing is shorter.
pub fn list(image: &[u8], room: &mut [u8]) -> Result<usize, Refusal> {
    long_value(door::list(image, room))
}

/// The sitting: the nearest strains of 1 to 64 plates, one plate's values after the other's. Plate j owns the places from j times
/// `neighbours` on, in both slices. Gives how many of a plate's places hold strains; the others hold code 0 and distance 0.
pub fn sitting(image: &[u8], plates: &[i16], neighbours: u32, codes: &mut [u32], distances: &mut [u32]) -> Result<usize, Refusal> {
    one_value(door::sitting(image, plates, neighbours, codes, distances))
}

/// What a search within a radius tells.
#[derive(Clone, Copy, Debug, PartialEq, Eq)]
pub struct Inside {
    /// How many strains lie inside.
    pub strains: usize,
    /// How many profiles were measured to know.
    pub measured: usize,
}

/// The strains within a radius of a plate, at the front of both slices, which need a place for each strain of the library.
pub fn within(image: &[u8], plate: &[i16], radius: u32, codes: &mut [u32], distances: &mut [u32]) -> Result<Inside, Refusal> {
    let told = answer(door::within(image, plate, radius, codes, distances))?;
    Ok(Inside { strains: told.first.into(), measured: told.second.into() })
}

/// The short call: the five nearest strains of one plate, which is given as bytes in the image's coding. Writes five times code and
/// distance to the first 40 bytes of `out`, 4 bytes each, the lowest byte first. A refusal tells its number alone.
pub fn short(image: &[u8], plate: &[u8], out: &mut [u8]) -> Result<(), Reason> {
    short_answer(door::short(image, plate, out))
}
