//! The bytes of an image: where each part of it stands.
use crate::distance::Wells;

/// The header as its 16 bytes say it.
pub struct Header {
    pub edition: usize,
    pub wells: usize,
    pub metric: u8,
    pub n: usize,
    pub root: usize,
    pub profiles: usize,
    pub nodes: usize,
}

/// A node as its 8 bytes say it.
pub struct Node {
    pub code: u32,
    pub parent: usize,
    pub level: i32,
    pub spare: u8,
}

/// An image whose header and length are right.
pub struct Image<'a> {
    pub wells: usize,
    pub metric: u8,
    pub root: usize,
    pub nodes: &'a [[u8; 8]],
    pub profiles: &'a Wells,
}

/// The offset of nodes, which is also the length of the shortest bytes that the check looks at.
pub const NODES: usize = 16;

/// The longest image: 1,024 strains of 16 wells.
pub const LONGEST: usize = 40_976;

/// The offset of profiles.
pub fn profiles(n: usize) -> usize {
    node_at(n)
}

/// Where a record's node stands.
pub fn node_at(record: usize) -> usize {
    NODES + 8 * record
}

/// Where a record's profile stands.
pub fn profile_at(n: usize, wells: usize, record: usize) -> usize {
    profiles(n) + 2 * wells * record
}

/// The length of a whole image.
pub fn length(n: usize, wells: usize) -> usize {
    profile_at(n, wells, n)
}

/// What an image of so many wells grows by with each strain.
pub fn growth(wells: usize) -> usize {
    length(1, wells) - length(0, wells)
}

impl Header {
    /// Of an image that is laid out as it should be.
    pub fn right(wells: usize, metric: u8, n: usize, root: usize) -> Self {
        Header { edition: 1, wells, metric, n, root, profiles: profiles(n), nodes: NODES }
    }

    pub fn read(bytes: &[u8]) -> Self {
        let two = |at| u16::from_le_bytes([bytes[at], bytes[at + 1]]) as usize;
        let four = |at| two(at) | two(at + 2) << 16;
        Header { edition: two(0), wells: bytes[2] as usize, metric: bytes[3], n: two(4), root: two(6), profiles: four(8), nodes: four(12) }
    }

    pub fn bytes(&self) -> [u8; 16] {
        let two = |number: usize| (number as u16).to_le_bytes();
        let four = |number: usize| (number as u32).to_le_bytes();
        let mut bytes = [0; 16];
        bytes[..2].copy_from_slice(&two(self.edition));
        bytes[2..4].copy_from_slice(&[self.wells as u8, self.metric]);
        bytes[4..6].copy_from_slice(&two(self.n));
        bytes[6..8].copy_from_slice(&two(self.root));
        bytes[8..12].copy_from_slice(&four(self.profiles));
        bytes[12..].copy_from_slice(&four(self.nodes));
        bytes
    }
}

impl Node {
    #[inline]
    pub fn read(bytes: &[u8; 8]) -> Self {
        let [c0, c1, c2, c3, p0, p1, level_plus_1, spare] = *bytes;
        Node {
            code: u32::from_le_bytes([c0, c1, c2, c3]),
            parent: u16::from_le_bytes([p0, p1]) as usize,
            level: level_plus_1 as i32 - 1,
            spare,
        }
    }

    pub fn bytes(&self) -> [u8; 8] {
        let ([c0, c1, c2, c3], [p0, p1]) = (self.code.to_le_bytes(), (self.parent as u16).to_le_bytes());
        [c0, c1, c2, c3, p0, p1, (self.level + 1) as u8, self.spare]
    }
}

impl<'a> Image<'a> {
    #[inline]
    pub fn n(&self) -> usize {
        self.nodes.len()
    }

    #[inline]
    pub fn node(&self, record: usize) -> Node {
        Node::read(&self.nodes[record])
    }

    #[inline]
    pub fn profile(&self, record: usize) -> &'a Wells {
        &self.profiles[record * self.wells..][..self.wells]
    }

    /// All records in file order.
    #[inline]
    pub fn records(&self) -> impl Iterator<Item = (Node, &'a Wells)> {
        self.first(self.n())
    }

    /// So many of them.
    #[inline]
    pub fn first(&self, count: usize) -> impl Iterator<Item = (Node, &'a Wells)> {
        self.nodes[..count].iter().map(Node::read).zip(self.profiles.chunks_exact(self.wells))
    }
}

/// A profile as an image holds it.
pub fn wells_of(profile: &[i16]) -> Vec<[u8; 2]> {
    profile.iter().map(|w| w.to_le_bytes()).collect()
}

/// A profile as a plate is given.
pub fn values_of(wells: &Wells) -> Vec<i16> {
    wells.iter().map(|w| i16::from_le_bytes(*w)).collect()
}
