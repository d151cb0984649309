//! What a call of the library is to the fuzzer: what is lent to it, how it is made, and what must hold afterwards.
use crate::{guard::Guarded, image};
use kwalgimo::{Place, Reason, Refusal};
use plain::data::Random;
use std::fmt::Debug;

/// The two values told (0 where a call tells fewer), or the refusal.
pub type Answer = Result<[usize; 2], Refusal>;

/// The refusal number, or 0.
pub fn number_of(answer: &Answer) -> u8 {
    answer.as_ref().map_or_else(|refusal| refusal.reason.number(), |_| 0)
}

/// Guarded memory for as many slices as a call is lent.
pub type Memory = [Guarded; 4];

pub trait Call: Debug + PartialEq + Sized {
    const NAME: &'static str;

    /// Whether a refusal tells its place.
    const TELLS_PLACES: bool = true;

    /// Whether the call can be refused by this number.
    fn refused_by(number: u8) -> bool;

    /// A call with this image, which may be any bytes, and other arguments that suit it or not.
    fn any(image: Vec<u8>, random: &mut Random) -> Self;

    /// The image that is lent to it, if one is.
    fn image(&self) -> Option<&[u8]>;

    /// Makes the call on guarded memory. Gives its answer, and the same call with all that was lent to it as it is now.
    fn make(&self, memory: &mut Memory) -> (Answer, Self);

    /// What must hold when it was not refused.
    fn holds(&self, told: [usize; 2], left: &Self) -> Result<(), String>;
}

/// Whether what a call answered and left behind can be right.
pub fn judge<C: Call>(call: &C, answer: Answer, left: &C) -> Result<(), String> {
    if let Some(image) = call.image() {
        let of_check = answer.err().filter(|refusal| refusal.reason.number() <= Reason::Separation.number());
        let place = |told| if C::TELLS_PLACES { told } else { Place::None };
        let alone = kwalgimo::check(image).err().map(|refusal| Refusal { place: place(refusal.place), ..refusal });
        ensure(of_check == alone, "the check alone answers otherwise")?;
    }
    let refusal = match answer {
        Ok(told) => return call.holds(told, left),
        Err(refusal) => refusal,
    };
    let strains = call.image().map_or(0, image::strains);
    ensure(C::refused_by(refusal.reason.number()), "it may not be refused so")?;
    ensure(!C::TELLS_PLACES || place_fits(refusal, strains), "the refusal may not tell that place")?;
    ensure(call == left, "it is refused, yet something that was lent is changed")
}

/// Whether the place is of the kind that document 01 names, and its records are the image's.
fn place_fits(refusal: Refusal, strains: usize) -> bool {
    match refusal.reason {
        Reason::Node | Reason::Level | Reason::Cover | Reason::Held => is_record(refusal.place, strains),
        Reason::EqualCodes | Reason::Separation => {
            matches!(refusal.place, Place::Pair { earlier, later } if earlier < later && (later as usize) < strains)
        }
        Reason::NewCode => refusal.place == Place::None || is_record(refusal.place, strains),
        _ => refusal.place == Place::None,
    }
}

fn is_record(place: Place, strains: usize) -> bool {
    matches!(place, Place::Record(record) if (record as usize) < strains)
}

pub fn ensure(holds: bool, otherwise: &str) -> Result<(), String> {
    if holds {
        Ok(())
    } else {
        Err(otherwise.into())
    }
}

#[cfg(test)]
mod tests {
    use super::*;
    use crate::calls::Check;

    const PAIR: Place = Place::Pair { earlier: 1, later: 2 };

    #[test]
    fn a_place_is_of_the_kind_that_its_number_has() {
        let fits = |reason, place| place_fits(Refusal { reason, place }, 3);
        assert!(fits(Reason::Cover, Place::Record(2)) && fits(Reason::Separation, PAIR) && fits(Reason::Room, Place::None));
        assert!(fits(Reason::NewCode, Place::None) && fits(Reason::NewCode, Place::Record(0)));
        assert!(!fits(Reason::Cover, Place::None) && !fits(Reason::Cover, PAIR) && !fits(Reason::Cover, Place::Record(3)));
        assert!(!fits(Reason::Separation, Place::Pair { earlier: 2, later: 1 }));
        assert!(!fits(Reason::Separation, Place::Pair { earlier: 2, later: 3 }));
        assert!(!fits(Reason::Room, Place::Record(0)) && !fits(Reason::NewCode, PAIR));
    }

    #[test]
    fn a_refusal_changes_nothing_and_is_the_one_that_the_check_tells() {
        let call = |image: &[u8]| Check::any(image.to_vec(), &mut Random::new(1));
        let refused = |reason| Err(Refusal { reason, place: Place::None });
        let short = call(&[1, 2, 3]);
        assert_eq!(judge(&short, refused(Reason::Size), &short), Ok(()));
        assert!(judge(&short, refused(Reason::Size), &call(&[1, 2, 4])).is_err());
        assert!(judge(&short, refused(Reason::Edition), &short).is_err());
        assert!(judge(&short, refused(Reason::Full), &short).is_err());
        assert!(judge(&short, Ok([0, 0]), &short).is_err());
    }
}
