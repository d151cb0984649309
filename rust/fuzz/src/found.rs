//! Strains that a search found.
use crate::call::ensure;

/// The furthest that two profiles can be apart.
const FURTHEST: u32 = 1_048_560;

/// They have codes and distances, and come in ascending order of distance, then code.
pub fn in_order(codes: &[u32], distances: &[u32]) -> Result<(), String> {
    let keys: Vec<_> = distances.iter().zip(codes).collect();
    ensure(codes.iter().all(|code| *code > 0), "a strain found has code 0")?;
    ensure(distances.iter().all(|distance| *distance <= FURTHEST), "a strain found is further than can be")?;
    ensure(keys.is_sorted_by(|a, b| a < b), "the strains found are not in order")
}

#[cfg(test)]
mod tests {
    use super::*;

    #[test]
    fn distance_comes_first_then_code() {
        assert_eq!(in_order(&[103, 102, 104], &[3, 4, 4]), Ok(()));
        assert!(in_order(&[102, 103], &[4, 3]).is_err());
        assert!(in_order(&[104, 102], &[4, 4]).is_err());
        assert!(in_order(&[102, 102], &[4, 4]).is_err());
    }

    #[test]
    fn a_strain_has_a_code_and_a_distance() {
        assert!(in_order(&[0, 102], &[3, 4]).is_err());
        assert_eq!(in_order(&[1], &[FURTHEST]), Ok(()));
        assert!(in_order(&[1], &[FURTHEST + 1]).is_err());
    }
}
