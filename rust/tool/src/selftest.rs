//! Whether a library finds every strain that it holds, from every side. Each strain's own profile is taken as a plate, and the answers of the
//! library and of its filing form are held to rules.
mod differ;
#[cfg(test)]
pub mod fake;
mod report;
pub mod rules;
#[cfg(test)]
mod tests;

pub use report::Report;

use crate::progress::Progress;
use kwalgimo::{Library, Match, Refusal, Strain, MOST_DISTANCE, MOST_NEIGHBOURS, MOST_PLATES};

/// What is asked of a library. The proved one gives no wrong answer, so the tests stand another in its place.
pub trait Searched: Sized {
    /// The `k` nearest strains of each plate.
    fn nearest(&self, plates: &[i16], k: usize) -> SittingAnswer;
    fn within(&self, plate: &[i16], radius: u32) -> Answer;
    fn filing_form(&self) -> Self;
}

/// The strains that a search names for one plate.
pub type Answer = Result<Vec<Match>, Refusal>;
/// The same for each plate of a sitting.
pub type SittingAnswer = Result<Vec<Vec<Match>>, Refusal>;

impl Searched for Library {
    fn nearest(&self, plates: &[i16], k: usize) -> SittingAnswer {
        Ok(self.nearest(plates, k)?.plates().map(<[Match]>::to_vec).collect())
    }

    fn within(&self, plate: &[i16], radius: u32) -> Answer {
        Ok(self.within(plate, radius)?.strains)
    }

    fn filing_form(&self) -> Self {
        self.filing_form()
    }
}

/// All that was asked with one strain's profile as the plate.
pub struct Tried<'a> {
    pub code: u32,
    /// The codes of the library, ascending.
    pub codes: &'a [u32],
    /// The distance of the last of the nearest.
    pub radius: u32,
    pub library: Answers,
    pub form: Answers,
}

/// What the library answers, or its filing form.
pub struct Answers {
    pub nearest: Answer,
    /// Within the greatest distance.
    pub all: Answer,
    /// Within the distance of the last of the nearest.
    pub near: Answer,
}

/// Tries a library that holds these strains.
pub fn tried(library: &impl Searched, strains: &[Strain]) -> Report {
    let form = library.filing_form();
    let mut codes: Vec<_> = strains.iter().map(|strain| strain.code).collect();
    codes.sort_unstable();
    let mut report = Report::new(strains.len());
    let mut progress = Progress::new("profiles tried");
    let sittings = sittings(library, strains).into_iter().zip(sittings(&form, strains));
    for (done, (Strain { code, profile }, (nearest, filed))) in strains.iter().zip(sittings).enumerate() {
        let radius = last_distance(&nearest);
        let (library, form) = (answers(library, profile, nearest, radius), answers(&form, profile, filed, radius));
        report.take(&Tried { code: *code, codes: &codes, radius, library, form });
        progress.step(done + 1, strains.len());
    }
    report
}

/// The nearest of every strain's profile, by as many sittings as it takes.
fn sittings(library: &impl Searched, strains: &[Strain]) -> Vec<Answer> {
    strains.chunks(MOST_PLATES).flat_map(|strains| sitting(library, strains)).collect()
}

/// An answer for each of the strains: also where the sitting is refused, or leaves out a plate.
fn sitting(library: &impl Searched, strains: &[Strain]) -> Vec<Answer> {
    let plates: Vec<_> = strains.iter().flat_map(|strain| &strain.profile).copied().collect();
    match library.nearest(&plates, MOST_NEIGHBOURS) {
        Ok(mut found) => {
            found.resize(strains.len(), Vec::new());
            found.into_iter().map(Ok).collect()
        }
        Err(refusal) => vec![Err(refusal); strains.len()],
    }
}

/// 0 where the sitting names no strain, which breaks other rules.
fn last_distance(nearest: &Answer) -> u32 {
    nearest.iter().flatten().last().map_or(0, |last| last.distance)
}

fn answers(library: &impl Searched, plate: &[i16], nearest: Answer, radius: u32) -> Answers {
    Answers { nearest, all: library.within(plate, MOST_DISTANCE), near: library.within(plate, radius) }
}
