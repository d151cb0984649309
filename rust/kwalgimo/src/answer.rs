//! The answer word taken apart.
//!
//! | bits | refused | not refused |
//! |---|---|---|
//! | 0..7 | the refusal number | 0 |
//! | 8..15 | place: 0 none, 1 a record, 2 a pair | 0 |
//! | 16..31 | the record; of a pair the earlier record | first value |
//! | 32..47 | of a pair the later record; else 0 | second value |
//! | 48..63 | 0 | 0 |
//!
//! A listing's length takes both values: the first is its lower 16 bits, the second its upper ones.
use crate::refusal::{Place, Reason, Refusal};

/// The two values that a call tells when it is not refused.
#[derive(Clone, Copy, Debug, PartialEq)]
pub struct Told {
    pub first: u16,
    pub second: u16,
}

/// What a word says. A word that breaks the table is a bug of the library: then nothing that it says can be trusted.
pub fn answer(word: u64) -> Result<Told, Refusal> {
    decoded(word).unwrap_or_else(|| broken(word))
}

/// The answer of a call that tells one value.
pub fn one_value(word: u64) -> Result<usize, Refusal> {
    match answer(word)? {
        Told { first, second: 0 } => Ok(first.into()),
        _ => broken(word),
    }
}

/// The answer of a call that tells one value of 32 bits.
pub fn long_value(word: u64) -> Result<usize, Refusal> {
    let Told { first, second } = answer(word)?;
    Ok(usize::from(first) | usize::from(second) << 16)
}

/// The answer of a call that tells none.
pub fn no_value(word: u64) -> Result<(), Refusal> {
    match answer(word)? {
        Told { first: 0, second: 0 } => Ok(()),
        _ => broken(word),
    }
}

/// The answer of the short call: 0, or the refusal number.
pub fn short(number: u32) -> Result<(), Reason> {
    match number {
        0 => Ok(()),
        _ => Err(u8::try_from(number).ok().and_then(Reason::numbered).unwrap_or_else(|| broken(number.into()))),
    }
}

/// None of a word that breaks the table.
fn decoded(word: u64) -> Option<Result<Told, Refusal>> {
    let [number, kind, ..] = word.to_le_bytes();
    let [_, first, second, 0] = [0, 16, 32, 48].map(|bit| (word >> bit) as u16) else { return None };
    if number == 0 {
        return (kind == 0).then_some(Ok(Told { first, second }));
    }
    let place = match (kind, first, second) {
        (0, 0, 0) => Place::None,
        (1, record, 0) => Place::Record(record),
        (2, earlier, later) => Place::Pair { earlier, later },
        _ => return None,
    };
    Some(Err(Refusal { reason: Reason::numbered(number)?, place }))
}

fn broken(word: u64) -> ! {
    panic!("the library answered {word:#x}, which means nothing: this is a bug of the library")
}

#[cfg(test)]
mod tests {
    use super::*;

    fn refused(reason: Reason, place: Place) -> Option<Result<Told, Refusal>> {
        Some(Err(Refusal { reason, place }))
    }

    #[test]
    fn an_answer_that_is_not_refused() {
        assert_eq!(decoded(0), Some(Ok(Told { first: 0, second: 0 })));
        assert_eq!(decoded(0x0000_0004_0003_0000), Some(Ok(Told { first: 3, second: 4 })));
        assert_eq!(decoded(0x0000_ffff_ffff_0000), Some(Ok(Told { first: 0xffff, second: 0xffff })));
    }

    #[test]
    fn a_refusal_with_each_kind_of_place() {
        assert_eq!(decoded(0x0000_0000_0000_0014), refused(Reason::Full, Place::None));
        assert_eq!(decoded(0x0000_0000_0001_010c), refused(Reason::Cover, Place::Record(1)));
        assert_eq!(decoded(0x0000_0000_0000_0109), refused(Reason::Node, Place::Record(0)));
        assert_eq!(decoded(0x0000_0007_0002_020a), refused(Reason::EqualCodes, Place::Pair { earlier: 2, later: 7 }));
    }

    #[test]
    fn each_number_is_its_reason() {
        for number in 0..=u8::MAX {
            let reason = (1..=20).contains(&number).then(|| Reason::ALL[number as usize - 1]);
            let told = decoded(number.into()).and_then(Result::err);
            assert_eq!(told.map(|refusal| refusal.reason), reason, "{number}");
        }
    }

    #[test]
    fn a_bit_where_the_table_has_0() {
        let good = [0, 0x0004_0003_0000, 0x14, 0x1_010c, 0x7_0002_020a];
        for (word, bit) in good.into_iter().flat_map(|word| (48..64).map(move |bit| (word, bit))) {
            assert_eq!(decoded(word | 1 << bit), None, "{word:#x} with bit {bit}");
        }
        for word in [0x0100, 0x0200, 0x0300, 0x0314, 0x1_0014, 0x1_0000_0014, 0x1_0001_010c, 0x15, 0xff] {
            assert_eq!(decoded(word), None, "{word:#x}");
        }
    }

    #[test]
    #[should_panic(expected = "answered 0x100000000,")]
    fn one_value_is_not_two() {
        _ = one_value(0x1_0000_0000);
    }

    #[test]
    fn a_long_value_takes_both() {
        assert_eq!(long_value(0x57_0000), Ok(0x57));
        assert_eq!(long_value(0x0000_0002_0003_0000), Ok(0x2_0003));
        assert_eq!(long_value(0x0000_ffff_fffe_0000), Ok(0xffff_fffe));
        assert_eq!(long_value(0x10), Err(Refusal { reason: Reason::Room, place: Place::None }));
    }

    #[test]
    #[should_panic(expected = "answered 0x10000,")]
    fn no_value_is_not_one() {
        _ = no_value(0x1_0000);
    }

    #[test]
    fn the_short_call_tells_a_number() {
        assert_eq!(short(0), Ok(()));
        assert_eq!(short(14), Err(Reason::Plate));
        assert_eq!(short(20), Err(Reason::Full));
    }

    #[test]
    #[should_panic(expected = "answered 0x101,")]
    fn the_short_call_tells_no_more() {
        _ = short(0x101);
    }
}
