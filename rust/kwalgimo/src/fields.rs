//! The fields of an image as document 01 lays them out, read from any bytes: also of a refused image, to show what it says.

/// The editions of an image that the library takes.
pub const EDITIONS: [u16; 1] = [1];

/// Bytes that the longest image has: 1,024 strains of 16 wells.
pub const MOST_BYTES: usize = HEADER + 1_024 * (NODE + 2 * 16);

/// Bytes of an image: its header, and one record's node.
pub(crate) const HEADER: usize = 16;
pub(crate) const NODE: usize = 8;

/// What the first 16 bytes of an image say.
///
/// ```
/// let library = kwalgimo::Library::start(2, kwalgimo::Metric::Largest, 7, &[3, -4])?;
/// let header = kwalgimo::Header::of(library.bytes()).expect("an image has a header");
/// assert_eq!((header.edition, header.wells, header.metric, header.count, header.root), (1, 2, 2, 1, 0));
/// assert_eq!((header.profiles, header.nodes), (24, 16));
/// assert_eq!((header.node_at(0), header.profile_at(0), header.length()), (16, 24, 28));
/// assert_eq!(kwalgimo::Header::of(&[1, 0]), None);
/// # Ok::<(), kwalgimo::Refusal>(())
/// ```
#[derive(Clone, Copy, Debug, PartialEq, Eq)]
pub struct Header {
    pub edition: u16,
    pub wells: u8,
    pub metric: u8,
    /// How many strains.
    pub count: u16,
    /// The root's record.
    pub root: u16,
    /// The offset of the profiles.
    pub profiles: u32,
    /// The offset of the nodes.
    pub nodes: u32,
}

impl Header {
    /// None of fewer than 16 bytes.
    pub fn of(image: &[u8]) -> Option<Self> {
        let [e0, e1, wells, metric, n0, n1, r0, r1, p0, p1, p2, p3, o0, o1, o2, o3] = *image.first_chunk::<HEADER>()?;
        Some(Header {
            edition: u16::from_le_bytes([e0, e1]),
            wells,
            metric,
            count: u16::from_le_bytes([n0, n1]),
            root: u16::from_le_bytes([r0, r1]),
            profiles: u32::from_le_bytes([p0, p1, p2, p3]),
            nodes: u32::from_le_bytes([o0, o1, o2, o3]),
        })
    }

    /// Where document 01's layout has a record's node, and its profile.
    pub fn node_at(&self, record: usize) -> usize {
        HEADER + NODE * record
    }

    pub fn profile_at(&self, record: usize) -> usize {
        self.node_at(self.count.into()) + 2 * usize::from(self.wells) * record
    }

    /// How many bytes an image with this header has.
    pub fn length(&self) -> usize {
        self.profile_at(self.count.into())
    }
}

/// What an image says of one strain.
///
/// ```
/// let mut library = kwalgimo::Library::start(2, kwalgimo::Metric::Largest, 7, &[3, -4])?;
/// library.add(9, &[3, -3])?;
/// let record = kwalgimo::Record::of(library.bytes(), 1).expect("a record of this image");
/// assert_eq!((record.code, record.parent, record.level(), record.spare), (9, 0, -1, 0));
/// assert_eq!(record.profile, [3, -3]);
/// assert_eq!(kwalgimo::Record::of(library.bytes(), 2), None);
/// # Ok::<(), kwalgimo::Refusal>(())
/// ```
#[derive(Clone, Debug, PartialEq, Eq)]
pub struct Record {
    pub code: u32,
    /// The parent's record.
    pub parent: u16,
    /// The level plus 1.
    pub level_byte: u8,
    pub spare: u8,
    pub profile: Vec<i16>,
}

impl Record {
    /// Records are counted from 0. None of a record that the header does not count, or that the bytes do not reach.
    pub fn of(image: &[u8], record: usize) -> Option<Self> {
        let header = Header::of(image)?;
        if record >= header.count.into() {
            return None;
        }
        let [c0, c1, c2, c3, p0, p1, level_byte, spare] = *image.get(header.node_at(record)..)?.first_chunk::<NODE>()?;
        let profile = image.get(header.profile_at(record)..)?.get(..2 * usize::from(header.wells))?;
        Some(Record {
            code: u32::from_le_bytes([c0, c1, c2, c3]),
            parent: u16::from_le_bytes([p0, p1]),
            level_byte,
            spare,
            profile: profile.chunks_exact(2).map(|well| i16::from_le_bytes([well[0], well[1]])).collect(),
        })
    }

    /// From -1 to 20 where the image is accepted.
    pub fn level(&self) -> i32 {
        i32::from(self.level_byte) - 1
    }
}
