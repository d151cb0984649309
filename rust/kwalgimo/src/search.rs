//! The searches in a library that owns its image.
use crate::{
    lent::{self, Inside},
    library::number,
    Library, Refusal,
};

/// A strain that a search found, and how far it lies from the plate.
#[derive(Clone, Copy, Debug, PartialEq, Eq, Hash)]
pub struct Match {
    pub code: u32,
    pub distance: u32,
}

/// The nearest strains of each plate of a sitting.
#[derive(Clone, Debug, PartialEq, Eq)]
pub struct Sitting {
    /// Each plate has so many.
    filled: usize,
    matches: Vec<Match>,
}

impl Sitting {
    /// The strains nearest to a plate, the nearest first, and of equally near ones the lowest code. Plates are counted from 0; one that
    /// the sitting has not makes it panic.
    pub fn plate(&self, plate: usize) -> &[Match] {
        self.plates().nth(plate).expect("a plate of this sitting")
    }

    /// The same of every plate, in the order in which the plates were given.
    pub fn plates(&self) -> impl ExactSizeIterator<Item = &[Match]> {
        self.matches.chunks_exact(self.filled)
    }
}

/// The strains within a radius of a plate.
#[derive(Clone, Debug, PartialEq, Eq)]
pub struct Near {
    /// The nearest first, and of equally near ones the lowest code.
    pub strains: Vec<Match>,
    /// How many profiles were measured to know that these are all.
    pub measured: usize,
}

/// How many plates a sitting takes.
pub const MOST_PLATES: usize = 64;
/// How many strains of each plate it can be asked for.
pub const MOST_NEIGHBOURS: usize = 32;
/// How far two profiles lie apart at most: 16 wells, with 65,535 between the values of each.
pub const MOST_DISTANCE: u32 = 16 * 65_535;

impl Library {
    /// The `k` nearest strains of 1 to 64 plates, one plate's values after the other's. Where the library holds fewer, all of them.
    ///
    /// ```
    /// # use kwalgimo::{Library, Metric};
    /// let mut library = Library::start(2, Metric::Largest, 1, &[0, 0])?;
    /// library.add(2, &[100, 40])?;
    /// let sitting = library.nearest(&[3, -3, 90, 41], 1)?;
    /// let codes: Vec<_> = sitting.plates().map(|found| found[0].code).collect();
    /// assert_eq!(codes, [1, 2]);
    /// # Ok::<(), kwalgimo::Refusal>(())
    /// ```
    pub fn nearest(&self, plates: &[i16], k: usize) -> Result<Sitting, Refusal> {
        // more of either is refused before the room is asked for
        let room = (plates.len() / self.wells()).min(MOST_PLATES) * k.min(MOST_NEIGHBOURS);
        let (mut codes, mut distances) = (vec![0; room], vec![0; room]);
        let filled = lent::sitting(self.bytes(), plates, number(k), &mut codes, &mut distances)?;
        let rows = codes.chunks_exact(k).zip(distances.chunks_exact(k));
        let matches = rows.flat_map(|(codes, distances)| matches(&codes[..filled], &distances[..filled])).collect();
        Ok(Sitting { filled, matches })
    }

    /// All strains at most `radius` from a plate.
    ///
    /// ```
    /// # use kwalgimo::{Library, Metric};
    /// let mut library = Library::start(1, Metric::CityBlock, 101, &[0])?;
    /// library.add(102, &[3])?;
    /// library.add(103, &[10])?;
    /// let near = library.within(&[7], 4)?;
    /// assert_eq!(near.strains.iter().map(|found| found.code).collect::<Vec<_>>(), [103, 102]);
    /// # Ok::<(), kwalgimo::Refusal>(())
    /// ```
    pub fn within(&self, plate: &[i16], radius: u32) -> Result<Near, Refusal> {
        let (mut codes, mut distances) = (vec![0; self.len()], vec![0; self.len()]);
        let Inside { strains, measured } = lent::within(self.bytes(), plate, radius, &mut codes, &mut distances)?;
        Ok(Near { strains: matches(&codes[..strains], &distances[..strains]).collect(), measured })
    }
}

fn matches<'a>(codes: &'a [u32], distances: &'a [u32]) -> impl Iterator<Item = Match> + 'a {
    codes.iter().zip(distances).map(|(code, distance)| Match { code: *code, distance: *distance })
}
