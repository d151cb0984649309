//! What a call answers, in one number: the refusal number from bit 0 (0 is accepted), the kind of its place from bit 8 (none, record,
//! pair), the record or the earlier one of a pair from bit 16, the later one from bit 32. A call that did not refuse has from bit 16 the
//! first number that it tells, as the length of what it made, and from bit 32 the second. A listing's length goes on from bit 32.
use std::fmt;

#[derive(Clone, Copy, PartialEq)]
pub struct Verdict(pub u64);

impl Verdict {
    pub const ACCEPTED: Verdict = Verdict(0);

    /// A refusal that tells no place.
    pub fn nowhere(number: u64) -> Self {
        Verdict(number)
    }

    /// Such a refusal, where it applies.
    pub fn refuse(number: u64, applies: bool) -> Result<(), Self> {
        if applies {
            Err(Verdict::nowhere(number))
        } else {
            Ok(())
        }
    }

    pub fn at_record(number: u64, record: usize) -> Self {
        Verdict(number | 1 << 8 | (record as u64) << 16)
    }

    pub fn at_pair(number: u64, earlier: usize, later: usize) -> Self {
        Verdict(number | 2 << 8 | (earlier as u64) << 16 | (later as u64) << 32)
    }

    /// Not refused: an image or a listing of this length was made.
    pub fn made(length: usize) -> Self {
        Verdict::told(length, 0)
    }

    /// Not refused: these are the numbers told.
    pub fn told(first: usize, second: usize) -> Self {
        Verdict((first as u64) << 16 | (second as u64) << 32)
    }

    /// The refusal number.
    pub fn number(self) -> usize {
        self.0 as u8 as usize
    }

    pub fn refused(self) -> bool {
        self.number() != 0
    }

    /// The length of the image or the listing that was made.
    pub fn length(self) -> usize {
        assert!(!self.refused(), "{self}");
        (self.0 >> 16) as usize
    }

    /// The first number told by a search: how many strains.
    pub fn strains(self) -> usize {
        assert!(!self.refused(), "{self}");
        (self.0 >> 16) as u16 as usize
    }

    /// The second: how many profiles were measured.
    pub fn measured(self) -> usize {
        assert!(!self.refused(), "{self}");
        (self.0 >> 32) as usize
    }

    /// The refusal number and the kind of its place alone.
    pub fn kind(self) -> Self {
        Verdict(self.0 & 0xffff)
    }
}

impl fmt::Display for Verdict {
    fn fmt(&self, f: &mut fmt::Formatter) -> fmt::Result {
        let (number, kind, record, later) = (self.number(), self.0 >> 8 & 0xff, self.0 >> 16 & 0xffff, self.0 >> 32);
        match kind {
            _ if *self == Verdict::ACCEPTED => write!(f, "accepted"),
            _ if !self.refused() => write!(f, "not refused, {record} and {later}"),
            0 => write!(f, "refused, {number}"),
            1 => write!(f, "refused, {number}, record {record}"),
            _ => write!(f, "refused, {number}, pair {record} and {later}"),
        }
    }
}

/// The words and the number, since a wrong answer may have bits that the words do not show.
impl fmt::Debug for Verdict {
    fn fmt(&self, f: &mut fmt::Formatter) -> fmt::Result {
        write!(f, "{self} ({:#x})", self.0)
    }
}
