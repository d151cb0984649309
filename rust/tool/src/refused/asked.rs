//! What a call refuses a plate, a number or a new strain for, in figures.
use super::{line, METRICS};
use crate::{end::End, numbers::counted, plates::Plate, strains::NewStrain};
use kwalgimo::{Library, Place, Reason, Record, Refusal};

/// A plate whose values do not fit the library's wells.
pub fn plate(refusal: Refusal, Plate { place, label, values }: &Plate, library: &Library) -> End {
    let label = label.as_ref().map_or_else(String::new, |label| format!(" behind the label `{label}`"));
    let figures = format!("{place}: {}{label}, and the library has {}", counted(values.len(), "value"), counted(library.wells(), "well"));
    End::refused(line(refusal.reason, &figures))
}

pub fn neighbours(refusal: Refusal, k: u32) -> End {
    End::refused(line(refusal.reason, &format!("{} asked for, and it may be 1 to 32", counted(k as usize, "neighbour"))))
}

/// A strain with which no library is started.
pub fn start(refusal: Refusal, wells: u32, metric: u32, strain: &NewStrain) -> End {
    let figures = match refusal.reason {
        Reason::Wells => format!("{} asked for, and a profile has 1 to 16", counted(wells as usize, "well")),
        Reason::Metric => format!("metric {metric} asked for, and {METRICS}"),
        _ => new_strain(refusal, strain, wells as usize, &[]),
    };
    End::refused(line(refusal.reason, &figures))
}

/// A strain that does not go into a library.
pub fn add(refusal: Refusal, strain: &NewStrain, library: &Library) -> End {
    End::refused(line(refusal.reason, &new_strain(refusal, strain, library.wells(), library.bytes())))
}

fn new_strain(
    Refusal { reason, place }: Refusal,
    NewStrain { place: given, code, profile }: &NewStrain,
    wells: usize,
    image: &[u8],
) -> String {
    let figures = match (reason, place) {
        (Reason::NewProfile, _) => format!("{}, and the library has {}", counted(profile.len(), "value"), counted(wells, "well")),
        (Reason::NewCode, Place::Record(record)) => format!("code {code} is taken, by record {record}"),
        (Reason::NewCode, _) => "the code is 0, and codes begin at 1".into(),
        (Reason::Held, Place::Record(record)) => {
            let holder = Record::of(image, record.into()).map_or_else(String::new, |held| format!(" (code {})", held.code));
            format!("record {record}{holder} has this profile already")
        }
        _ => reason.sentence().into(),
    };
    format!("{given}: {figures}")
}
