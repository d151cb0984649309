//! Distances, by the proved library.
use kwalgimo::{Library, Metric};

/// How far two profiles lie apart: a library that holds the one alone tells how far the other lies from it. None of what is no
/// profile.
pub fn apart(metric: Metric, one: &[i16], other: &[i16]) -> Option<u32> {
    let alone = Library::start(one.len(), metric, 1, one).ok()?;
    Some(alone.within(other, u32::MAX).ok()?.strains.first()?.distance)
}

#[cfg(test)]
mod tests {
    use super::*;

    #[test]
    fn by_both_metrics() {
        assert_eq!(apart(Metric::CityBlock, &[0, 3, -9], &[4, 3, 1]), Some(14));
        assert_eq!(apart(Metric::Largest, &[0, 3, -9], &[4, 3, 1]), Some(10));
        assert_eq!(apart(Metric::CityBlock, &[i16::MIN; 16], &[i16::MAX; 16]), Some(1_048_560));
        assert_eq!(apart(Metric::CityBlock, &[5], &[5]), Some(0));
    }

    #[test]
    fn what_has_no_distance() {
        assert_eq!(apart(Metric::CityBlock, &[], &[]), None);
        assert_eq!(apart(Metric::CityBlock, &[0], &[1, 2]), None);
    }
}
