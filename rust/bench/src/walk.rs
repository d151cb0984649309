//! The walk of the nearest search, simulated, to tell how many profiles it measures. The root is measured and offered, then its children in
//! file order, each likewise. A node's children are all passed over when the list already holds k strains and the node is further than the
//! worst of them and its reach, judged just after it is offered.
use crate::cases::Case;
use plain::{distance, images::Library, level};

/// The share of all profiles that a walk measures for the first of a case's plates.
pub fn measured(case: &Case, k: usize, count: usize) -> f64 {
    let walk = Walk::new(&case.tree);
    let measured: usize = case.first(count).chunks_exact(case.kind.wells).map(|plate| walk.nearest(plate, k).0).sum();
    measured as f64 / (count * case.kind.strains) as f64
}

struct Walk<'a> {
    tree: &'a Library,
    children: Vec<Vec<usize>>,
}

impl<'a> Walk<'a> {
    fn new(tree: &'a Library) -> Self {
        let mut children = vec![Vec::new(); tree.records.len()];
        for (record, v) in tree.records.iter().enumerate().filter(|(record, _)| *record != tree.root) {
            children[v.parent].push(record);
        }
        Walk { tree, children }
    }

    /// How many profiles are measured for the nearest k of a plate, and those, by distance and code.
    fn nearest(&self, plate: &[i16], k: usize) -> (usize, Vec<(u32, u32)>) {
        let (mut measured, mut kept) = (0, Vec::new());
        let mut ahead = vec![self.tree.root];
        while let Some(record) = ahead.pop() {
            let v = &self.tree.records[record];
            let d = distance::lists(self.tree.metric, &v.profile, plate);
            measured += 1;
            kept.push((d, v.code));
            kept.sort_unstable();
            kept.truncate(k);
            if kept.len() < k || d <= kept[k - 1].0 + level::reach(v.level) {
                ahead.extend(self.children[record].iter().rev());
            }
        }
        (measured, kept)
    }
}

#[cfg(test)]
mod tests {
    use super::Walk;
    use crate::scan;
    use plain::{data::Random, images::any_library, plates::any_plate};

    #[test]
    fn the_walk_finds_what_a_scan_finds() {
        let mut random = Random::new(1);
        for _ in 0..500 {
            let (tree, k) = (any_library(&mut random), 1 + random.below(32));
            let plate = any_plate(&tree, &mut random);
            let (mut codes, mut distances) = ([0; 32], [0; 32]);
            scan::nearest(&tree.bytes(), &plate, k, &mut codes, &mut distances);
            let (measured, kept) = Walk::new(&tree).nearest(&plate, k);
            assert!(distances.into_iter().zip(codes).take(k.min(tree.records.len())).eq(kept));
            assert!(measured <= tree.records.len());
        }
    }
}
