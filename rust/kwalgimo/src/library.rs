//! A library that owns its image.
use crate::{
    fields::{HEADER, NODE},
    lent, Record, Refusal,
};

/// How the distance of two profiles is measured.
#[derive(Clone, Copy, Debug, PartialEq, Eq, Hash)]
#[repr(u8)]
pub enum Metric {
    /// Metric 1: the sum of the wells' absolute differences.
    CityBlock = 1,
    /// Metric 2: the largest of the wells' absolute differences.
    Largest = 2,
}

impl Metric {
    /// The metric with this number, if there is one.
    pub fn numbered(number: u8) -> Option<Self> {
        [Metric::CityBlock, Metric::Largest].into_iter().find(|metric| *metric as u8 == number)
    }

    /// Its name in words.
    pub fn name(self) -> &'static str {
        match self {
            Metric::CityBlock => "city block",
            Metric::Largest => "largest difference",
        }
    }
}

/// One strain of a library.
#[derive(Clone, Debug, PartialEq, Eq, Hash)]
pub struct Strain {
    pub code: u32,
    pub profile: Vec<i16>,
}

/// A library of strains. The bytes that it holds are always an image that the check accepts.
///
/// ```
/// use kwalgimo::{Library, Match, Metric};
///
/// let mut library = Library::start(1, Metric::CityBlock, 101, &[0])?;
/// library.add(102, &[3])?;
/// library.add(103, &[10])?;
/// library.add(104, &[11])?;
///
/// // the three nearest strains of a plate
/// let sitting = library.nearest(&[7], 3)?;
/// let found = [(103, 3), (102, 4), (104, 4)].map(|(code, distance)| Match { code, distance });
/// assert_eq!(sitting.plate(0), found);
///
/// // a strain that the library holds already, under another code
/// let refusal = library.add(105, &[10]).unwrap_err();
/// assert_eq!(refusal.reason, kwalgimo::Reason::Held);
/// assert_eq!(refusal.place, kwalgimo::Place::Record(2));
///
/// // what is kept in a file
/// let again = Library::from_bytes(library.bytes().to_vec())?;
/// assert_eq!(again, library);
/// # Ok::<(), kwalgimo::Refusal>(())
/// ```
#[derive(Clone, Debug, PartialEq, Eq)]
pub struct Library {
    image: Vec<u8>,
}

#[expect(clippy::len_without_is_empty, reason = "a library has at least one strain")]
impl Library {
    /// The library that these bytes are, if the check accepts them.
    pub fn from_bytes(image: Vec<u8>) -> Result<Self, Refusal> {
        lent::check(&image)?;
        Ok(Library { image })
    }

    /// A library with one strain.
    pub fn start(wells: usize, metric: Metric, code: u32, profile: &[i16]) -> Result<Self, Refusal> {
        let mut image = vec![0; HEADER + NODE + 2 * profile.len()];
        let length = lent::start(number(wells), metric as u32, code, profile, &mut image)?;
        image.truncate(length);
        Ok(Library { image })
    }

    /// Adds a strain, as its last record. A refused strain leaves the library as it was.
    pub fn add(&mut self, code: u32, profile: &[i16]) -> Result<(), Refusal> {
        let length = self.image.len();
        // the room stays with the image, so that only now and then it has to move
        self.image.resize(length + NODE + 2 * self.wells(), 0);
        let added = lent::add(&mut self.image, length, code, profile);
        self.image.truncate(added.unwrap_or(length));
        added.map(|_| ())
    }

    /// The same strains as filing lays them out: started with the lowest code, the others added in ascending order of code. Libraries
    /// with the same wells, metric and strains have the same filing form.
    ///
    /// ```
    /// # use kwalgimo::{Library, Metric};
    /// let mut one = Library::start(2, Metric::Largest, 7, &[0, 0])?;
    /// one.add(3, &[5, -5])?;
    /// let mut other = Library::start(2, Metric::Largest, 3, &[5, -5])?;
    /// other.add(7, &[0, 0])?;
    ///
    /// assert_ne!(one, other);
    /// assert_eq!(one.filing_form(), other.filing_form());
    /// # Ok::<(), kwalgimo::Refusal>(())
    /// ```
    pub fn filing_form(&self) -> Self {
        let mut image = vec![0; self.image.len()];
        lent::file(&self.image, &mut image).expect("an accepted image is filed where there is room");
        Library { image }
    }

    /// The library as text: a header, and one line for each record with its code, its parent's code, its level and its values.
    ///
    /// ```
    /// # use kwalgimo::{Library, Metric};
    /// let mut library = Library::start(1, Metric::CityBlock, 101, &[0])?;
    /// library.add(102, &[3])?;
    /// library.add(103, &[10])?;
    /// library.add(104, &[11])?;
    /// assert_eq!(
    ///     library.listing(),
    ///     "wells 1 metric 1 count 4 root 101\n\
    ///      101 101 4 0\n\
    ///      102 101 1 3\n\
    ///      103 101 3 10\n\
    ///      104 103 -1 11\n"
    /// );
    /// # Ok::<(), kwalgimo::Refusal>(())
    /// ```
    pub fn listing(&self) -> String {
        let mut room = vec![0; lent::LISTING_BYTES];
        let length = lent::list(&self.image, &mut room).expect("an accepted image is listed where there is room");
        room.truncate(length);
        String::from_utf8(room).expect("a listing is ASCII")
    }

    /// The image.
    pub fn bytes(&self) -> &[u8] {
        &self.image
    }

    /// How many wells a profile has, 1 to 16.
    pub fn wells(&self) -> usize {
        self.image[2].into()
    }

    pub fn metric(&self) -> Metric {
        Metric::numbered(self.image[3]).expect("an accepted image has a metric")
    }

    /// How many strains it holds, 1 to 1,024.
    pub fn len(&self) -> usize {
        u16::from_le_bytes([self.image[4], self.image[5]]).into()
    }

    /// Its strains, record by record.
    ///
    /// ```
    /// # use kwalgimo::{Library, Metric};
    /// let mut library = Library::start(2, Metric::CityBlock, 9, &[120, -4])?;
    /// library.add(4, &[118, 0])?;
    /// let strains: Vec<_> = library.strains().map(|strain| (strain.code, strain.profile)).collect();
    /// assert_eq!(strains, [(9, vec![120, -4]), (4, vec![118, 0])]);
    /// # Ok::<(), kwalgimo::Refusal>(())
    /// ```
    pub fn strains(&self) -> impl ExactSizeIterator<Item = Strain> + '_ {
        self.records().map(|Record { code, profile, .. }| Strain { code, profile })
    }

    /// The record of the root, from which every strain is reached.
    pub fn root(&self) -> usize {
        u16::from_le_bytes([self.image[6], self.image[7]]).into()
    }

    /// Its strains and their places in the tree, record by record.
    ///
    /// ```
    /// # use kwalgimo::{Library, Metric};
    /// let mut library = Library::start(1, Metric::CityBlock, 101, &[0])?;
    /// library.add(102, &[3])?;
    /// let tree: Vec<_> = library.records().map(|record| (record.code, record.parent, record.level())).collect();
    /// assert_eq!(tree, [(101, 0, 2), (102, 0, 1)]);
    /// assert_eq!(library.root(), 0);
    /// # Ok::<(), kwalgimo::Refusal>(())
    /// ```
    pub fn records(&self) -> impl ExactSizeIterator<Item = Record> + '_ {
        (0..self.len()).map(|record| Record::of(&self.image, record).expect("an accepted image has the records it counts"))
    }
}

/// A count as the calls take it. None is allowed that is over 32 bits, so the largest stands for those.
pub(crate) fn number(count: usize) -> u32 {
    u32::try_from(count).unwrap_or(u32::MAX)
}
