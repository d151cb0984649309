//! Made-up libraries: as the rules build them, in other shapes that are accepted too, and damaged.
mod any;
mod damage;
mod deepest;
mod fault;
mod making;
mod rehang;
mod source;
pub use any::{any_library, any_shape};
pub use damage::damaged;
pub use deepest::deepest;
pub use fault::planted;
pub use making::{drawn, made, Data, Kind, Order};
pub use source::Source;

use crate::{
    build::built,
    data::{bytes_of, Random},
    distance::Wells,
    layout::{values_of, Header, Image, Node},
};

#[derive(Clone, Debug, PartialEq)]
pub struct Record {
    pub code: u32,
    pub parent: usize,
    pub level: i32,
    pub profile: Vec<i16>,
}

#[derive(Clone, Debug, PartialEq)]
pub struct Library {
    pub metric: u8,
    pub root: usize,
    pub records: Vec<Record>,
}

impl Library {
    /// Started with the first strain, the others added in turn.
    pub fn built(metric: u8, strains: &[(u32, Vec<i16>)]) -> Self {
        Library::read(&built(metric, strains))
    }

    /// The same tree with its records in another order.
    pub fn shuffled(mut self, random: &mut Random) -> Self {
        for last in (1..self.records.len()).rev() {
            self.swap(random.below(last + 1), last);
        }
        self
    }

    fn swap(&mut self, a: usize, b: usize) {
        let swapped = |record: usize| match record {
            _ if record == a => b,
            _ if record == b => a,
            _ => record,
        };
        self.records.swap(a, b);
        self.records.iter_mut().for_each(|v| v.parent = swapped(v.parent));
        self.root = swapped(self.root);
    }

    /// The library that an accepted image holds.
    pub fn read(image: &[u8]) -> Self {
        let image = Image::read(image).expect("the image is accepted");
        let record = |(v, profile): (Node, &Wells)| Record { code: v.code, parent: v.parent, level: v.level, profile: values_of(profile) };
        Library { metric: image.metric, root: image.root, records: image.records().map(record).collect() }
    }

    /// The library as an image.
    pub fn bytes(&self) -> Vec<u8> {
        let mut image = Header::right(self.wells(), self.metric, self.records.len(), self.root).bytes().to_vec();
        let node = |v: &Record| Node { code: v.code, parent: v.parent, level: v.level, spare: 0 }.bytes();
        self.records.iter().for_each(|v| image.extend(node(v)));
        self.records.iter().for_each(|v| image.extend(bytes_of(&v.profile)));
        image
    }

    pub fn wells(&self) -> usize {
        self.records[0].profile.len()
    }
}

/// The library of the worked examples, as listed.
pub fn example() -> Library {
    let record = |code, parent, level, value| Record { code, parent, level, profile: vec![value] };
    Library { metric: 1, root: 0, records: vec![record(101, 0, 4, 0), record(102, 0, 1, 3), record(103, 0, 3, 10), record(104, 2, -1, 11)] }
}

#[cfg(test)]
mod tests {
    use super::*;
    use crate::{file, verdict::Verdict};

    fn built(strains: &[(u32, i16)]) -> Library {
        let strains: Vec<_> = strains.iter().map(|(code, value)| (*code, vec![*value])).collect();
        Library::built(1, &strains)
    }

    #[test]
    fn the_example_is_what_the_rules_build() {
        assert_eq!(built(&[(101, 0), (102, 3), (103, 10), (104, 11)]), example());
    }

    #[test]
    fn the_nearest_node_may_be_unable_to_take_a_strain() {
        let last = built(&[(101, 0), (102, 3), (103, 10), (104, 11), (105, 12)]).records.pop();
        assert_eq!(last, Some(Record { code: 105, parent: 2, level: 0, profile: vec![12] }));
    }

    #[test]
    fn another_order_builds_another_tree() {
        let nodes = built(&[(104, 11), (103, 10), (102, 3), (101, 0)]).records.into_iter().map(|v| (v.level, v.parent));
        assert_eq!(nodes.collect::<Vec<_>>(), [(3, 0), (-1, 0), (2, 0), (1, 2)]);
    }

    #[test]
    fn filing_undoes_another_order() {
        let image = built(&[(104, 11), (103, 10), (102, 3), (101, 0)]).bytes();
        let mut form = vec![0; image.len()];
        assert_eq!(file(&image, &mut form), Verdict::made(image.len()));
        assert_eq!(form, example().bytes());
    }

    #[test]
    fn an_image_is_read_as_it_was_written() {
        let kind = Kind { strains: 300, wells: 3, metric: 2, data: Data::Clustered, codes: Order::Random };
        let mut random = Random::new(1);
        let tree = made(kind, &mut random).shuffled(&mut random);
        assert_eq!(Library::read(&tree.bytes()), tree);
    }
}
