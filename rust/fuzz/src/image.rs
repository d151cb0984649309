//! What any bytes say as an image, also where they are none.

/// How many strains the header counts. Of fewer than 16 bytes none.
pub fn strains(image: &[u8]) -> usize {
    image.first_chunk::<16>().map_or(0, |header| u16::from_le_bytes([header[4], header[5]]).into())
}

/// How many wells it names, but at least 1.
pub fn wells(image: &[u8]) -> usize {
    image.get(2).map_or(1, |wells| *wells.max(&1)).into()
}

/// The code of a record, if the image is as long.
pub fn code(image: &[u8], record: usize) -> Option<u32> {
    image.get(16 + 8 * record..)?.first_chunk().map(|code| u32::from_le_bytes(*code))
}

/// The profile of a record, if the image is as long.
pub fn profile(image: &[u8], record: usize) -> Option<Vec<i16>> {
    let (from, size) = (16 + 8 * strains(image), 2 * wells(image));
    image.get(from + size * record..)?.get(..size).map(values)
}

/// Values from bytes, two each.
pub fn values(bytes: &[u8]) -> Vec<i16> {
    bytes.chunks_exact(2).map(|value| i16::from_le_bytes([value[0], value[1]])).collect()
}
