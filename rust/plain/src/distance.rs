//! The two distances of profiles.

/// A profile as an image holds it, well by well.
pub type Wells = [[u8; 2]];

#[inline]
fn difference(x: i16, y: i16) -> u32 {
    (x as i32 - y as i32).unsigned_abs()
}

/// The wells' differences, joined by the metric's number.
#[inline]
fn joined(metric: u8, differences: impl Iterator<Item = u32>) -> u32 {
    match metric {
        1 => differences.sum(),
        2 => differences.max().unwrap_or(0),
        _ => 0,
    }
}

/// The distance of two profiles in an image.
#[inline]
pub fn pair(metric: u8, p: &Wells, q: &Wells) -> u32 {
    joined(metric, p.iter().zip(q).map(|(x, y)| difference(i16::from_le_bytes(*x), i16::from_le_bytes(*y))))
}

/// The distance of a profile in an image and a plate.
#[inline]
pub fn plate(metric: u8, p: &Wells, plate: &[i16]) -> u32 {
    joined(metric, p.iter().zip(plate).map(|(x, y)| difference(i16::from_le_bytes(*x), *y)))
}

/// The distance of two lists of wells.
#[inline]
pub fn lists(metric: u8, a: &[i16], b: &[i16]) -> u32 {
    joined(metric, a.iter().zip(b).map(|(x, y)| difference(*x, *y)))
}

/// Of `count` profiles, one after the other in the bytes from `from` on, the first that lies nearer to a plate than `limit`: its distance,
/// or the limit where none does.
pub fn plate_row(metric: u8, image: &[u8], from: usize, wells_of_plate: &[i16], count: usize, limit: u32) -> u32 {
    let wells = wells_of_plate.len();
    let distance = |j| plate(metric, profile_at(image, from + j * 2 * wells, wells), wells_of_plate);
    (0..count).map(distance).find(|d| *d < limit).unwrap_or(limit)
}

/// The same, nearer to the profile at `at` of the same bytes.
pub fn pair_row(metric: u8, image: &[u8], at: usize, from: usize, wells: usize, count: usize, limit: u32) -> u32 {
    let distance = |j| pair(metric, profile_at(image, at, wells), profile_at(image, from + j * 2 * wells, wells));
    (0..count).map(distance).find(|d| *d < limit).unwrap_or(limit)
}

fn profile_at(image: &[u8], at: usize, wells: usize) -> &Wells {
    image[at..at + 2 * wells].as_chunks().0
}
