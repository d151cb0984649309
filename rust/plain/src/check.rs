//! The check of an image: refusal numbers 1 to 13, each tested over all records before the next.
use crate::{
    distance::{pair, Wells},
    layout::{self, Header, Image, Node},
    level,
    verdict::Verdict,
};

pub fn check(bytes: &[u8]) -> Verdict {
    checked(bytes).err().unwrap_or(Verdict::ACCEPTED)
}

/// The image that the bytes hold, if it is accepted.
pub fn checked(bytes: &[u8]) -> Result<Image<'_>, Verdict> {
    let image = Image::read(bytes).map_err(Verdict::nowhere)?;
    image.fields()?;
    image.codes()?;
    image.levels()?;
    // two copies of the loops, each with its metric built in
    if image.metric == 1 {
        image.distances(|p, q| pair(1, p, q))?;
    } else {
        image.distances(|p, q| pair(2, p, q))?;
    }
    Ok(image)
}

impl<'a> Image<'a> {
    /// Numbers 1 to 8.
    pub fn read(bytes: &'a [u8]) -> Result<Self, u64> {
        if !(layout::NODES..=layout::LONGEST).contains(&bytes.len()) {
            return Err(1);
        }
        let Header { edition, wells, metric, n, root, profiles, nodes } = Header::read(bytes);
        let right = [
            (2, edition == 1),
            (3, (1..=16).contains(&wells)),
            (4, metric == 1 || metric == 2),
            (5, (1..=1024).contains(&n)),
            (6, profiles == layout::profiles(n) && nodes == layout::NODES),
            (7, bytes.len() == layout::length(n, wells)),
            (8, root < n),
        ];
        match right.iter().find(|(_, holds)| !holds) {
            Some((number, _)) => Err(*number),
            None => {
                Ok(Image { wells, metric, root, nodes: bytes[nodes..profiles].as_chunks().0, profiles: bytes[profiles..].as_chunks().0 })
            }
        }
    }

    fn fields(&self) -> Result<(), Verdict> {
        let wrong = |v: Node| v.code == 0 || v.parent >= self.n() || v.level > 20 || v.spare != 0;
        match self.nodes.iter().map(Node::read).position(wrong) {
            Some(record) => Err(Verdict::at_record(9, record)),
            None => Ok(()),
        }
    }

    fn codes(&self) -> Result<(), Verdict> {
        for later in 0..self.n() {
            let code = self.node(later).code;
            if let Some(earlier) = self.nodes[..later].iter().position(|other| Node::read(other).code == code) {
                return Err(Verdict::at_pair(10, earlier, later));
            }
        }
        Ok(())
    }

    fn levels(&self) -> Result<(), Verdict> {
        for (record, v) in self.nodes.iter().map(Node::read).enumerate() {
            let holds = if record == self.root { v.parent == record } else { v.level < self.node(v.parent).level };
            if !holds {
                return Err(Verdict::at_record(11, record));
            }
        }
        Ok(())
    }

    fn distances(&self, distance: impl Fn(&Wells, &Wells) -> u32) -> Result<(), Verdict> {
        self.cover(&distance)?;
        self.separation(&distance)
    }

    /// Past 11 the root is its own parent, at distance 0.
    fn cover(&self, distance: impl Fn(&Wells, &Wells) -> u32) -> Result<(), Verdict> {
        for (record, (v, p)) in self.records().enumerate() {
            if distance(self.profile(v.parent), p) > level::cover_limit(v.level) {
                return Err(Verdict::at_record(12, record));
            }
        }
        Ok(())
    }

    /// Two nodes have to be further apart than 2^m, m being the lower level.
    fn separation(&self, distance: impl Fn(&Wells, &Wells) -> u32) -> Result<(), Verdict> {
        for (later, (own, profile)) in self.records().enumerate() {
            let near = |(other, p): (Node, &Wells)| level::within(distance(p, profile), own.level.min(other.level));
            if let Some(earlier) = self.first(later).position(near) {
                return Err(Verdict::at_pair(13, earlier, later));
            }
        }
        Ok(())
    }
}
