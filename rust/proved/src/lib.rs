//! The calls of the proved library, through its wrapper, answering by the same word as plain Rust does; and the doors to its inside.
mod doors;
pub use doors::{level, lists, pair_row, plate_row};

use kwalgimo::{Inside, Place, Reason, Refusal};
use plain::verdict::Verdict;

pub fn check(image: &[u8]) -> Verdict {
    word(kwalgimo::check(image), |()| Verdict::ACCEPTED)
}

pub fn start(wells: u32, metric: u32, code: u32, profile: &[i16], buffer: &mut [u8]) -> Verdict {
    word(kwalgimo::start(wells, metric, code, profile, buffer), Verdict::made)
}

pub fn add(buffer: &mut [u8], image_len: usize, code: u32, profile: &[i16]) -> Verdict {
    word(kwalgimo::add(buffer, image_len, code, profile), Verdict::made)
}

pub fn file(image: &[u8], buffer: &mut [u8]) -> Verdict {
    word(kwalgimo::file(image, buffer), Verdict::made)
}

pub fn list(image: &[u8], room: &mut [u8]) -> Verdict {
    word(kwalgimo::list(image, room), Verdict::made)
}

pub fn sitting(image: &[u8], plates: &[i16], k: u32, codes: &mut [u32], distances: &mut [u32]) -> Verdict {
    word(kwalgimo::sitting(image, plates, k, codes, distances), |filled| Verdict::told(filled, 0))
}

pub fn within(image: &[u8], plate: &[i16], radius: u32, codes: &mut [u32], distances: &mut [u32]) -> Verdict {
    word(kwalgimo::within(image, plate, radius, codes, distances), |Inside { strains, measured }| Verdict::told(strains, measured))
}

pub fn short(image: &[u8], plate: &[u8], out: &mut [u8]) -> Verdict {
    let answer = kwalgimo::short(image, plate, out).map_err(|reason| Refusal { reason, place: Place::None });
    word(answer, |()| Verdict::ACCEPTED)
}

fn word<T>(answer: Result<T, Refusal>, told: impl Fn(T) -> Verdict) -> Verdict {
    answer.map_or_else(refused, told)
}

fn refused(Refusal { reason, place }: Refusal) -> Verdict {
    let number = Reason::number(reason).into();
    match place {
        Place::None => Verdict::nowhere(number),
        Place::Record(record) => Verdict::at_record(number, record.into()),
        Place::Pair { earlier, later } => Verdict::at_pair(number, earlier.into(), later.into()),
    }
}
