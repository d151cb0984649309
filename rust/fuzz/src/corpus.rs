//! The images that calls are made with: libraries, and changed ones that got the fuzzer further.
use crate::{
    call::{number_of, Answer},
    mutate::mutated,
};
use kwalgimo::{Library, Metric, Place, Reason, Refusal};
use plain::data::Random;
use std::{
    collections::HashSet,
    mem::{discriminant, Discriminant},
};

/// Changed images are kept up to so many; then a new one takes the place of another.
const KEPT: usize = 400;
/// A changed image is kept only up to so many bytes, as calls with long ones take long.
const SHORT: usize = 2048;
/// A library of so many strains is full.
const FULL: usize = 1024;

/// What an answer was like: the call's name, the refusal number or 0, the kind of its place.
type Kind = (&'static str, u8, Option<Discriminant<Place>>);

pub struct Corpus {
    long: Vec<Vec<u8>>,
    short: Vec<Vec<u8>>,
    kept: Vec<Vec<u8>>,
    seen: HashSet<Kind>,
}

impl Corpus {
    pub fn new(random: &mut Random) -> Self {
        let mut long = library(FULL - 1, random);
        let one_fits = long.bytes().to_vec();
        grow(&mut long, FULL, random);
        let short = (0..64).map(|round| library(1 + round / 4 + random.below(8), random).bytes().to_vec()).collect();
        Corpus { long: vec![one_fits, long.bytes().to_vec()], short, kept: Vec::new(), seen: HashSet::new() }
    }

    /// An image as it is, or changed.
    pub fn any_image(&self, random: &mut Random) -> Vec<u8> {
        let image = self.any(random);
        match random.below(4) {
            0 => image.to_vec(),
            _ => mutated(image, self.any(random), random),
        }
    }

    fn any(&self, random: &mut Random) -> &[u8] {
        let shelf = match random.below(256) {
            0 => &self.long,
            1..128 if !self.kept.is_empty() => &self.kept,
            _ => &self.short,
        };
        &shelf[random.below(shelf.len())]
    }

    /// Keeps an image that got further: the call's answer is of a kind that was not seen before, or the image is new and still a library.
    pub fn learn(&mut self, call: &'static str, image: &[u8], answer: &Answer, random: &mut Random) {
        let new_kind = self.seen.insert(kind(call, answer));
        let new_library = answer.is_ok() && image.len() <= SHORT && !self.short.iter().chain(&self.kept).any(|known| known == image);
        if !(new_kind || new_library) {
            return;
        }
        if self.kept.len() < KEPT {
            self.kept.push(image.to_vec());
        } else {
            self.kept[random.below(KEPT)] = image.to_vec();
        }
    }
}

fn kind(call: &'static str, answer: &Answer) -> Kind {
    (call, number_of(answer), answer.err().map(|refusal| discriminant(&refusal.place)))
}

/// Started and grown through the library itself.
fn library(strains: usize, random: &mut Random) -> Library {
    let (wells, metric) = (1 + random.below(16), [Metric::CityBlock, Metric::Largest][random.below(2)]);
    let mut library = Library::start(wells, metric, code(0), &vec![0; wells]).expect("a strain");
    grow(&mut library, strains, random);
    library
}

/// Adds strains with wells that lie close together or far apart, up to so many.
fn grow(library: &mut Library, strains: usize, random: &mut Random) {
    let mut spread: i16 = 1 << (4 + random.below(11));
    while library.len() < strains {
        let profile: Vec<i16> = (0..library.wells()).map(|_| random.even_well() % spread).collect();
        match library.add(code(library.len()), &profile) {
            Ok(()) => (),
            Err(Refusal { reason: Reason::Held, .. }) => spread = spread.saturating_mul(2),
            Err(refusal) => panic!("a new strain: {refusal}"),
        }
    }
}

/// Codes in no order, the same for the same record; of a library no two are alike.
fn code(record: usize) -> u32 {
    1 + record as u32 * 8191 % 65_521
}
