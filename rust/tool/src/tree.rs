//! A library's tree, laid out from its root.
use crate::measure;
use kwalgimo::{Library, Metric, Record};

pub struct Tree {
    pub records: Vec<Record>,
    pub root: usize,
    metric: Metric,
    /// Of each record its children, in the order of the file.
    children: Vec<Vec<usize>>,
}

/// A strain as it comes up when the tree is gone through: after its parent, and with all below it before its next sibling.
#[derive(Clone, Copy, Debug, PartialEq, Eq)]
pub struct Step {
    pub record: usize,
    /// How many stand between it and the root, the root counted: 0 at the root.
    pub below: usize,
}

impl Tree {
    pub fn of(library: &Library) -> Self {
        let (records, root) = (library.records().collect::<Vec<_>>(), library.root());
        let mut children = vec![Vec::new(); records.len()];
        for (number, record) in records.iter().enumerate().filter(|(number, _)| *number != root) {
            children[usize::from(record.parent)].push(number);
        }
        Tree { records, root, metric: library.metric(), children }
    }

    /// All strains from the root on.
    pub fn steps(&self) -> Vec<Step> {
        let mut steps = Vec::with_capacity(self.records.len());
        let mut waiting = vec![Step { record: self.root, below: 0 }];
        while let Some(step) = waiting.pop() {
            steps.push(step);
            let children = self.children[step.record].iter().rev();
            waiting.extend(children.map(|child| Step { record: *child, below: step.below + 1 }));
        }
        steps
    }

    /// How many records stand on the longest way from a strain to the root, both counted.
    pub fn depth(&self) -> usize {
        self.steps().iter().map(|step| step.below + 1).max().unwrap_or(0)
    }

    pub fn parent(&self, record: usize) -> &Record {
        &self.records[usize::from(self.records[record].parent)]
    }

    /// In the order of the file.
    pub fn children(&self, record: usize) -> &[usize] {
        &self.children[record]
    }

    /// How far a strain lies from its parent. None of the root.
    pub fn distance(&self, record: usize) -> Option<u32> {
        let (own, parents) = (&self.records[record].profile, &self.parent(record).profile);
        (record != self.root).then(|| measure::apart(self.metric, own, parents)).flatten()
    }
}

/// Libraries to try things with.
#[cfg(test)]
pub mod samples {
    use kwalgimo::{Library, Metric};
    use plain::data::Random;

    /// Document 01's example.
    pub fn example() -> Library {
        let mut library = Library::start(1, Metric::CityBlock, 101, &[0]).unwrap();
        [(102, 3), (103, 10), (104, 11)].into_iter().for_each(|(code, value)| library.add(code, &[value]).unwrap());
        library
    }

    pub fn lone_root() -> Library {
        Library::start(1, Metric::Largest, 5, &[0]).unwrap()
    }

    /// 300 strains at random, the same each time.
    pub fn strewn() -> Library {
        let mut random = Random::new(1);
        let mut profile = || [(); 3].map(|()| random.even_well());
        let mut library = Library::start(3, Metric::CityBlock, 1_000, &profile()).unwrap();
        (1_001..1_300).for_each(|code| library.add(code, &profile()).unwrap());
        library
    }
}

#[cfg(test)]
mod tests {
    use super::*;

    #[test]
    fn the_example_from_its_root_on() {
        let tree = Tree::of(&samples::example());
        let steps: Vec<_> = tree.steps().iter().map(|step| (tree.records[step.record].code, step.below)).collect();
        assert_eq!(steps, [(101, 0), (102, 1), (103, 1), (104, 2)]);
        assert_eq!(tree.depth(), 3);
        assert_eq!(tree.parent(3).code, 103);
        assert_eq!(tree.children(0), [1, 2]);
        assert_eq!([0, 1, 2, 3].map(|record| tree.distance(record)), [None, Some(3), Some(10), Some(1)]);
    }

    #[test]
    fn a_lone_root() {
        let tree = Tree::of(&samples::lone_root());
        assert_eq!(tree.steps(), [Step { record: 0, below: 0 }]);
        assert_eq!(tree.depth(), 1);
        assert_eq!(tree.distance(0), None);
    }
}
