//! Why a call is refused, and at which records.
use std::{error::Error, fmt};

/// One case for each number of document 01's table, in its order.
#[derive(Clone, Copy, Debug, PartialEq, Eq, Hash)]
#[repr(u8)]
pub enum Reason {
    /// 1: the image has fewer than 16 bytes or more than 40,976.
    Size = 1,
    /// 2: the edition is not 1.
    Edition,
    /// 3: the wells are not 1 to 16.
    Wells,
    /// 4: the metric is not 1 or 2.
    Metric,
    /// 5: the strains are not 1 to 1,024.
    Count,
    /// 6: an offset is not the one that the layout gives.
    Offsets,
    /// 7: the length differs from the layout.
    Length,
    /// 8: the root is no record of the image.
    RootNumber,
    /// 9: a record has code 0, a parent that is no record, a level byte over 21 or a spare byte that is not 0.
    Node,
    /// 10: two records have the same code.
    EqualCodes,
    /// 11: the root's parent is not itself, or another's level is not below its parent's.
    Level,
    /// 12: a strain lies further from its parent than its level covers.
    Cover,
    /// 13: two strains lie too near each other for their levels.
    Separation,
    /// 14: the plate values are not 1 to 64 plates of the library's wells; where one plate is asked for, not one.
    Plate,
    /// 15: the neighbours asked for are 0 or more than 32.
    Neighbours,
    /// 16: the memory lent is too small for the answer.
    Room,
    /// 17: the new profile has not as many values as the library has wells.
    NewProfile,
    /// 18: the new code is 0 or taken.
    NewCode,
    /// 19: the new profile equals one that the library holds.
    Held,
    /// 20: the library holds 1,024 strains already.
    Full,
}

impl Reason {
    /// All of them, in the order of their numbers.
    pub const ALL: [Reason; 20] = {
        use Reason::*;
        [
            Size, Edition, Wells, Metric, Count, Offsets, Length, RootNumber, Node, EqualCodes, Level, Cover, Separation, Plate,
            Neighbours, Room, NewProfile, NewCode, Held, Full,
        ]
    };

    /// The refusal number, 1 to 20.
    pub fn number(self) -> u8 {
        self as u8
    }

    /// The reason with this number, if there is one.
    pub fn numbered(number: u8) -> Option<Self> {
        Self::ALL.into_iter().find(|reason| reason.number() == number)
    }

    /// Its name in a word or two.
    pub fn name(self) -> &'static str {
        match self {
            Reason::Size => "size",
            Reason::Edition => "edition",
            Reason::Wells => "wells",
            Reason::Metric => "metric",
            Reason::Count => "count",
            Reason::Offsets => "offsets",
            Reason::Length => "length",
            Reason::RootNumber => "root number",
            Reason::Node => "node",
            Reason::EqualCodes => "equal codes",
            Reason::Level => "level",
            Reason::Cover => "cover",
            Reason::Separation => "separation",
            Reason::Plate => "plate",
            Reason::Neighbours => "neighbours",
            Reason::Room => "room",
            Reason::NewProfile => "new profile",
            Reason::NewCode => "new code",
            Reason::Held => "held profile",
            Reason::Full => "full",
        }
    }

    /// What is wrong, for a person.
    pub fn sentence(self) -> &'static str {
        match self {
            Reason::Size => "the image has fewer than 16 bytes or more than 40,976",
            Reason::Edition => "the image's edition is not 1",
            Reason::Wells => "the wells are not 1 to 16",
            Reason::Metric => "the metric is not 1 or 2",
            Reason::Count => "the image's strains are not 1 to 1,024",
            Reason::Offsets => "an offset in the image is not the one that its layout gives",
            Reason::Length => "the image's length is not the one that its layout gives",
            Reason::RootNumber => "the image's root is none of its records",
            Reason::Node => "a record has code 0, a parent that is no record, a level byte over 21 or a spare byte that is not 0",
            Reason::EqualCodes => "two records have the same code",
            Reason::Level => "the root's parent is not itself, or another record's level is not below its parent's",
            Reason::Cover => "a strain lies further from its parent than its level covers",
            Reason::Separation => "two strains lie too near each other for their levels",
            Reason::Plate => "the plate values do not fit the library's wells, or the plates are not as many as may be asked for",
            Reason::Neighbours => "the neighbours asked for are 0 or more than 32",
            Reason::Room => "the memory lent is too small for the answer",
            Reason::NewProfile => "the new profile has not as many values as the library has wells",
            Reason::NewCode => "the new code is 0 or taken",
            Reason::Held => "the library holds a strain with the new profile already",
            Reason::Full => "the library holds 1,024 strains already",
        }
    }
}

/// A sentence with the number behind it.
impl fmt::Display for Reason {
    fn fmt(&self, f: &mut fmt::Formatter) -> fmt::Result {
        write!(f, "{} (refusal {})", self.sentence(), self.number())
    }
}

/// The short call tells no place.
impl Error for Reason {}

/// The records at which a refusal applies. They are counted from 0.
#[derive(Clone, Copy, Debug, PartialEq, Eq, Hash)]
pub enum Place {
    None,
    Record(u16),
    Pair { earlier: u16, later: u16 },
}

/// Why a call was refused, and where. Nothing that was lent to the call is changed.
///
/// ```
/// let refusal = kwalgimo::check(b"not a library").unwrap_err();
/// assert_eq!(refusal.reason.number(), 1);
/// assert_eq!(refusal.to_string(), "the image has fewer than 16 bytes or more than 40,976 (refusal 1)");
/// ```
#[derive(Clone, Copy, Debug, PartialEq, Eq, Hash)]
pub struct Refusal {
    pub reason: Reason,
    pub place: Place,
}

impl fmt::Display for Refusal {
    fn fmt(&self, f: &mut fmt::Formatter) -> fmt::Result {
        write!(f, "{}", self.reason)?;
        match self.place {
            Place::None => Ok(()),
            Place::Record(record) => write!(f, ", at record {record}; records are counted from 0"),
            Place::Pair { earlier, later } => write!(f, ", at records {earlier} and {later}; records are counted from 0"),
        }
    }
}

impl Error for Refusal {}

#[cfg(test)]
mod tests {
    use super::*;

    #[test]
    fn numbers_run_from_1_to_20() {
        assert_eq!(Reason::ALL.map(Reason::number).to_vec(), (1..=20).collect::<Vec<u8>>());
        for number in 0..=u8::MAX {
            let known = Reason::numbered(number).map(Reason::number);
            assert_eq!(known, (1..=20).contains(&number).then_some(number));
        }
    }

    #[test]
    fn no_two_sentences_or_names_are_alike() {
        for (at, reason) in Reason::ALL.into_iter().enumerate() {
            assert!(Reason::ALL[..at].iter().all(|other| other.sentence() != reason.sentence()), "{reason}");
            assert!(Reason::ALL[..at].iter().all(|other| other.name() != reason.name()), "{reason}");
        }
    }

    #[test]
    fn a_refusal_says_where() {
        let said = |reason, place| Refusal { reason, place }.to_string();
        assert_eq!(said(Reason::Full, Place::None), "the library holds 1,024 strains already (refusal 20)");
        assert_eq!(
            said(Reason::Cover, Place::Record(1)),
            "a strain lies further from its parent than its level covers (refusal 12), at record 1; records are counted from 0"
        );
        assert_eq!(
            said(Reason::EqualCodes, Place::Pair { earlier: 2, later: 7 }),
            "two records have the same code (refusal 10), at records 2 and 7; records are counted from 0"
        );
    }
}
