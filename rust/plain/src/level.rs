//! Levels, and the distances that belong to them.

/// A lone root as start gives it.
pub const STARTED: i32 = 0;

/// The fitting level of a distance: the e with 2^e < d <= 2^(e+1), which is the bit length of d - 1, less 1.
pub fn fitting(d: u32) -> i32 {
    (u32::BITS - (d - 1).leading_zeros()) as i32 - 1
}

/// How far a node at this level may lie from its parent: 2^(level+1).
#[inline]
pub fn cover_limit(level: i32) -> u32 {
    1 << (level + 1)
}

/// Whether a distance is at most 2^level: both sides doubled, since the level may be -1.
#[inline]
pub fn within(d: u32, level: i32) -> bool {
    2 * d <= cover_limit(level)
}

/// How far a descendant may lie from a node at this level: 2^(level+1) - 1.
#[inline]
pub fn reach(level: i32) -> u32 {
    cover_limit(level) - 1
}

/// The level of a root that a new node comes under: it stays above.
pub fn raised(root: i32, new: i32) -> i32 {
    root.max(new + 1)
}

#[cfg(test)]
mod tests {
    use super::fitting;

    #[test]
    fn the_fitting_level_is_the_one_of_the_document() {
        let power = |e: i32| 2f64.powi(e);
        for d in 1..=1_048_560 {
            let (e, d) = (fitting(d), d as f64);
            assert!(power(e) < d && d <= power(e + 1), "{d}");
        }
    }
}
