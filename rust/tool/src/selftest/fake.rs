//! A library that answers wrongly, for tests.
use super::{Answer, Searched, SittingAnswer};
use kwalgimo::{Library, Match};

/// What is done to right answers before they are handed out.
#[derive(Clone, Copy)]
pub struct Fault {
    /// To a sitting, plate by plate.
    pub nearest: fn(Vec<Vec<Match>>) -> SittingAnswer,
    /// To a search, told its plate and its radius.
    pub within: fn(&[i16], u32, Vec<Match>) -> Answer,
}

pub const NO_FAULT: Fault = Fault { nearest: Ok, within: |_, _, found| Ok(found) };

pub struct Fake {
    pub library: Library,
    pub fault: Fault,
    /// The fault of its filing form.
    pub filed: Fault,
}

impl Searched for Fake {
    fn nearest(&self, plates: &[i16], k: usize) -> SittingAnswer {
        (self.fault.nearest)(Searched::nearest(&self.library, plates, k)?)
    }

    fn within(&self, plate: &[i16], radius: u32) -> Answer {
        (self.fault.within)(plate, radius, Searched::within(&self.library, plate, radius)?)
    }

    fn filing_form(&self) -> Self {
        Fake { library: self.library.filing_form(), fault: self.filed, filed: self.filed }
    }
}
