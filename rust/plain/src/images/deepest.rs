//! The deepest tree that there is: a strain at each level from 20 down to -1, each below the one before.
use super::{Library, Record};

/// By metric 1, with 16 wells: no other distances reach from the first level to the last.
pub fn deepest() -> Library {
    let mut records = vec![Record { code: 1, parent: 0, level: 20, profile: vec![i16::MIN; 16] }];
    for level in (-1..20).rev() {
        let parent = records.len() - 1;
        let mut profile = records[parent].profile.clone();
        // just far enough from the parent, and as much further from all before it
        match level {
            -1 => profile[0] -= 1,
            0..7 => profile[0] -= (1 << level) + 1,
            _ => raise(&mut profile, (1 << level) + 1),
        }
        records.push(Record { code: records.len() as u32 + 1, parent, level, profile });
    }
    Library { metric: 1, root: 0, records }
}

/// Well after well goes up to its end. The lowest levels find no room there, and go down again from the end of the first.
fn raise(profile: &mut [i16], mut by: i32) {
    for well in profile {
        let up = by.min(i16::MAX as i32 - *well as i32);
        *well = (*well as i32 + up) as i16;
        by -= up;
    }
}

#[cfg(test)]
mod tests {
    use super::deepest;
    use crate::{check, verdict::Verdict};

    #[test]
    fn it_is_accepted_and_has_every_level() {
        let tree = deepest();
        assert_eq!(tree.records.len(), 22);
        assert_eq!(check(&tree.bytes()), Verdict::ACCEPTED);
    }
}
