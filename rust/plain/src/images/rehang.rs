//! Trees that no adding builds, and that are accepted all the same.
use super::Library;
use crate::{data::Random, distance, level};

impl Library {
    /// The same strains in a tree of another shape: each hangs below any node that covers it, and the root may stand at any level above. Other levels
    /// stay, and so does what separation asks.
    pub fn rehung(mut self, random: &mut Random) -> Self {
        for record in (0..self.records.len()).filter(|record| *record != self.root) {
            let covering: Vec<_> = (0..self.records.len()).filter(|parent| self.covers(*parent, record)).collect();
            self.records[record].parent = covering[random.below(covering.len())];
        }
        if random.below(4) == 0 {
            let lowest = self.lowest_root();
            self.records[self.root].level = lowest + random.below((21 - lowest) as usize) as i32;
        }
        self
    }

    /// The lowest level that the root may have: above all others, and -1 where there is none.
    pub fn lowest_root(&self) -> i32 {
        let others = self.records.iter().enumerate().filter(|(record, _)| *record != self.root);
        others.map(|(_, v)| v.level + 1).max().unwrap_or(-1)
    }

    fn covers(&self, parent: usize, record: usize) -> bool {
        let (p, q) = (&self.records[parent], &self.records[record]);
        q.level < p.level && distance::lists(self.metric, &p.profile, &q.profile) <= level::cover_limit(q.level)
    }
}

#[cfg(test)]
mod tests {
    use super::*;
    use crate::{
        check,
        images::{made, Kind},
        verdict::Verdict,
    };
    use std::collections::BTreeSet;

    #[test]
    fn another_shape_is_accepted() {
        let mut random = Random::new(1);
        let trees: Vec<_> = (0..100).map(|_| made(Kind { strains: 20, ..Kind::any(&mut random) }, &mut random)).collect();
        let others: Vec<_> = trees.iter().map(|tree| tree.clone().rehung(&mut random)).collect();
        assert!(others.iter().all(|tree| check(&tree.bytes()) == Verdict::ACCEPTED));
        let parents = |tree: &Library| tree.records.iter().map(|v| v.parent).collect::<Vec<_>>();
        assert!(trees.iter().zip(&others).filter(|(tree, other)| parents(tree) != parents(other)).count() > 50);
    }

    #[test]
    fn a_lone_root_may_have_any_level() {
        let mut random = Random::new(1);
        let lone = made(Kind { strains: 1, ..Kind::any(&mut random) }, &mut random);
        let mut level = || {
            let tree = lone.clone().rehung(&mut random);
            assert_eq!(check(&tree.bytes()), Verdict::ACCEPTED);
            tree.records[0].level
        };
        let levels: BTreeSet<_> = (0..1000).map(|_| level()).collect();
        assert!(levels.into_iter().eq(-1..=20));
    }
}
