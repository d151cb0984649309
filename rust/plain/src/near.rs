//! Profiles made from held ones.
use crate::data::Random;

/// One well more, one fewer, or any number of them.
pub fn resized(profile: &[i16], random: &mut Random) -> Vec<i16> {
    let wells = match random.below(3) {
        0 => profile.len() - 1,
        1 => profile.len() + 1,
        _ => random.below(20),
    };
    let mut profile = profile.to_vec();
    profile.resize(wells, random.well());
    profile
}

/// Between a node and its parent: mostly both can take it, and often they are equally near.
pub fn halfway(p: &[i16], q: &[i16]) -> Vec<i16> {
    p.iter().zip(q).map(|(x, y)| (*x as i32 + *y as i32).div_euclid(2) as i16).collect()
}

/// One well or two moved by a power of two or one more or less, where levels turn.
pub fn moved(profile: &[i16], random: &mut Random) -> Vec<i16> {
    let mut profile = profile.to_vec();
    for _ in 0..1 + random.below(2) {
        let (well, power) = (random.below(profile.len()), random.below(16));
        let by = (1 << power) + random.below(3) as i32 - 1;
        let to = profile[well] as i32 + if random.below(2) == 0 { by } else { -by };
        profile[well] = to.clamp(i16::MIN as i32, i16::MAX as i32) as i16;
    }
    profile
}
