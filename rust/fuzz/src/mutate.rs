//! Images changed, by bytes, by fields, by counts and by lengths.
use crate::image;
use plain::{data::Random, images::damaged};

/// The longest that comes out, well above the longest image, and leaving room in guarded memory for a strain and some bytes more.
const LONGEST: usize = 61_440;

/// An image, or what became of one, changed once or a few times. Some of it may come from another.
pub fn mutated(image: &[u8], other: &[u8], random: &mut Random) -> Vec<u8> {
    let mut bytes = match random.below(8) {
        0 => scattered(image, random),
        1 => spliced(image, other, random),
        2 | 3 => relaid(image, random),
        // by fields, which takes a header that tells where they are
        _ if image::strains(image) > 0 && image[2] > 0 => damaged(image, random),
        _ => scattered(image, random),
    };
    bytes.truncate(LONGEST);
    bytes
}

/// A few bytes anywhere made any, and now and then the end cut off or moved out.
fn scattered(image: &[u8], random: &mut Random) -> Vec<u8> {
    let mut bytes = image.to_vec();
    if bytes.is_empty() || random.below(4) == 0 {
        bytes.resize(random.below(image.len() + 32), random.byte());
    }
    for _ in 0..random.below(4) {
        let at = random.below(bytes.len().max(1));
        if let Some(byte) = bytes.get_mut(at) {
            *byte = random.byte();
        }
    }
    bytes
}

/// The front of one and the end of the other.
fn spliced(image: &[u8], other: &[u8], random: &mut Random) -> Vec<u8> {
    let (front, end) = (random.below(image.len() + 1), random.below(other.len() + 1));
    [&image[..front], &other[end..]].concat()
}

/// Strains cut off or repeated, or other wells, with counts, offsets and length that fit: the layout is right, and what it holds may be.
fn relaid(image: &[u8], random: &mut Random) -> Vec<u8> {
    let (n, w) = (image::strains(image), image::wells(image));
    let strains = [n.saturating_sub(1), n + 1, random.below(n + 2)][random.below(3)].min(1030);
    let wells = if random.below(4) == 0 { 1 + random.below(16) } else { w };
    let parts = image.get(16..).and_then(|rest| rest.split_at_checked(8 * n));
    let Some((nodes, profiles)) = parts.filter(|(nodes, profiles)| !nodes.is_empty() && !profiles.is_empty()) else {
        return scattered(image, random);
    };
    let mut bytes = image[..16].to_vec();
    bytes[2] = wells as u8;
    bytes[4..6].copy_from_slice(&(strains as u16).to_le_bytes());
    bytes[8..12].copy_from_slice(&(16 + 8 * strains as u32).to_le_bytes());
    bytes.extend(nodes.iter().cycle().take(8 * strains));
    bytes.extend(profiles.iter().cycle().take(2 * wells * strains));
    bytes
}
