//! Images changed here and there, so that a check has something to refuse.
use crate::{
    data::Random,
    layout::{node_at, profile_at, LONGEST},
};

/// Where the parts of an image stood before it was changed.
struct Layout {
    strains: usize,
    wells: usize,
}

impl Layout {
    fn node(&self, record: usize) -> usize {
        node_at(record)
    }

    fn profile(&self, record: usize) -> usize {
        profile_at(self.strains, self.wells, record)
    }
}

/// A right image, changed in one place or in a few.
pub fn damaged(image: &[u8], random: &mut Random) -> Vec<u8> {
    let layout = Layout { strains: u16::from_le_bytes([image[4], image[5]]) as usize, wells: image[2] as usize };
    let changes = if random.below(4) == 0 { 2 + random.below(3) } else { 1 };
    let mut bytes = image.to_vec();
    for _ in 0..changes {
        change(&mut bytes, &layout, random);
    }
    bytes
}

fn change(bytes: &mut Vec<u8>, layout: &Layout, random: &mut Random) {
    let (record, other) = (random.below(layout.strains), random.below(layout.strains));
    let (node, profile) = (layout.node(record), layout.profile(record));
    // a record number: one of the image's, or one or two too many, or any
    let number = if random.below(8) == 0 { random.word() as u16 } else { random.below(layout.strains + 2) as u16 };
    match random.below(16) {
        0 => length(bytes, random),
        1..=3 => nudge(bytes, random.below(16), random),
        4 => put(bytes, 6, &number.to_le_bytes()),
        5 => put(bytes, node, &[0; 4]),
        6 => copy(bytes, layout.node(other), node, 4),
        7 => nudge(bytes, node + random.below(8), random),
        8 => put(bytes, node + 4, &number.to_le_bytes()),
        9 | 10 => nudge(bytes, node + 6, random),
        11 => put(bytes, node + 6, &[random.below(24) as u8]),
        12 => nudge(bytes, profile + random.below(2 * layout.wells), random),
        13 => copy(bytes, layout.profile(other), profile, 2 * layout.wells),
        14 => put(bytes, profile, &corner(layout.wells, random)),
        _ => {
            put(bytes, node + 4, &number.to_le_bytes());
            put(bytes, node + 6, &[random.below(22) as u8]);
        }
    }
}

/// Cuts the image or adds to it, often at the lengths where the answer turns.
fn length(bytes: &mut Vec<u8>, random: &mut Random) {
    let now = bytes.len();
    let new = match random.below(8) {
        0 => 0,
        1 => 15,
        2 => 16,
        3 => now.saturating_sub(1),
        4 => now + 1,
        5 => LONGEST + random.below(3),
        6 => random.below(now + 1),
        _ => now + random.below(64),
    };
    bytes.resize(new, random.word() as u8);
}

/// Changes one byte, often by one.
fn nudge(bytes: &mut [u8], at: usize, random: &mut Random) {
    let old = bytes.get(at).copied().unwrap_or(0);
    let new = match random.below(4) {
        0 => old.wrapping_add(1),
        1 => old.wrapping_sub(1),
        2 => old ^ 1 << random.below(8),
        _ => random.word() as u8,
    };
    put(bytes, at, &[new]);
}

/// Writes where the image still has room.
fn put(bytes: &mut [u8], at: usize, new: &[u8]) {
    if let Some(room) = bytes.get_mut(at..at + new.len()) {
        room.copy_from_slice(new);
    }
}

fn copy(bytes: &mut [u8], from: usize, to: usize, count: usize) {
    if from.max(to) + count <= bytes.len() {
        bytes.copy_within(from..from + count, to);
    }
}

/// A profile at one end of the range in each well.
fn corner(wells: usize, random: &mut Random) -> Vec<u8> {
    let end = if random.below(2) == 0 { i16::MIN } else { i16::MAX };
    end.to_le_bytes().repeat(wells)
}
