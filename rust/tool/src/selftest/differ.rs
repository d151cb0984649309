//! How an answer differs from what is expected, in words.
use kwalgimo::Match;
use std::fmt::Display;

/// Strains with their distances, in their order.
pub fn lists(expected: &[Match], got: &[Match]) -> Result<(), String> {
    if expected == got {
        return Ok(());
    }
    let same = expected.iter().zip(got).take_while(|(one, other)| one == other).count();
    let (wanted, given) = (said(expected.get(same)), said(got.get(same)));
    let missing = expected.iter().map(|strain| strain.code).filter(|code| got.iter().all(|strain| strain.code != *code));
    Err(format!("in place {}, expected {wanted}, got {given}{}", same + 1, some("; missing", missing)))
}

/// Codes in ascending order, no two of the expected alike.
pub fn codes(expected: &[u32], got: &[u32]) -> Result<(), String> {
    if expected == got {
        return Ok(());
    }
    let lacks = |codes: &[u32], code: &u32| codes.binary_search(code).is_err();
    let missing = some("; missing", expected.iter().filter(|code| lacks(got, code)));
    let strange = some("; not in the library", got.iter().filter(|code| lacks(expected, code)));
    let twice = some("; more than once", got.windows(2).filter(|pair| pair[0] == pair[1]).map(|pair| pair[0]));
    let (wanted, given) = (expected.len(), got.len());
    Err(format!("expected {wanted} codes, got {given}{missing}{strange}{twice}"))
}

pub fn said(strain: Option<&Match>) -> String {
    strain.map_or("none".into(), |Match { code, distance }| format!("{code} at distance {distance}"))
}

/// How many codes are told one by one.
const FEW: usize = 5;

/// Nothing of no codes.
fn some(what: &str, codes: impl Iterator<Item = impl Display>) -> String {
    let codes: Vec<_> = codes.map(|code| code.to_string()).collect();
    match codes.len() {
        0 => String::new(),
        1..=FEW => format!("{what} {}", codes.join(", ")),
        more => format!("{what} {} and {} more", codes[..FEW].join(", "), more - FEW),
    }
}

#[cfg(test)]
mod tests {
    use super::*;

    fn found(strains: &[(u32, u32)]) -> Vec<Match> {
        strains.iter().map(|(code, distance)| Match { code: *code, distance: *distance }).collect()
    }

    #[test]
    fn the_first_place_that_differs() {
        let expected = found(&[(103, 3), (102, 4), (104, 4)]);
        let differ = |got: &[(u32, u32)]| lists(&expected, &found(got)).unwrap_err();
        assert_eq!(lists(&expected, &expected), Ok(()));
        assert_eq!(differ(&[(103, 3), (104, 4), (102, 4)]), "in place 2, expected 102 at distance 4, got 104 at distance 4");
        assert_eq!(differ(&[(103, 3), (102, 4), (104, 5)]), "in place 3, expected 104 at distance 4, got 104 at distance 5");
        assert_eq!(differ(&[(103, 3), (104, 4)]), "in place 2, expected 102 at distance 4, got 104 at distance 4; missing 102");
        assert_eq!(differ(&[]), "in place 1, expected 103 at distance 3, got none; missing 103, 102, 104");
        assert_eq!(differ(&[(103, 3), (102, 4), (104, 4), (101, 7)]), "in place 4, expected none, got 101 at distance 7");
    }

    #[test]
    fn codes_that_differ() {
        let differ = |got: &[u32]| codes(&[1, 2, 3, 4, 5, 6, 7], got).unwrap_err();
        assert_eq!(codes(&[1, 2], &[1, 2]), Ok(()));
        assert_eq!(differ(&[1, 2, 3, 4, 5, 6]), "expected 7 codes, got 6; missing 7");
        assert_eq!(differ(&[1, 2, 3, 4, 5, 6, 8]), "expected 7 codes, got 7; missing 7; not in the library 8");
        assert_eq!(differ(&[1, 2, 3, 4, 4, 5, 6, 7]), "expected 7 codes, got 8; more than once 4");
        assert_eq!(differ(&[]), "expected 7 codes, got 0; missing 1, 2, 3, 4, 5 and 2 more");
    }
}
