//! Made-up wells, the same in every run with the same seed.
use crate::layout::wells_of;

/// A small generator (xorshift with a multiply), good enough to scatter wells.
pub struct Random(u64);

impl Random {
    pub fn new(seed: u64) -> Self {
        Random(seed.wrapping_mul(0x9e37_79b9_7f4a_7c15) | 1)
    }

    pub fn word(&mut self) -> u64 {
        self.0 ^= self.0 >> 12;
        self.0 ^= self.0 << 25;
        self.0 ^= self.0 >> 27;
        self.0.wrapping_mul(0x2545_f491_4f6c_dd1d)
    }

    /// A number below `end`.
    pub fn below(&mut self, end: usize) -> usize {
        (self.word() >> 16) as usize % end
    }

    pub fn byte(&mut self) -> u8 {
        (self.word() >> 32) as u8
    }

    pub fn number(&mut self) -> u32 {
        (self.word() >> 32) as u32
    }

    /// A well: one time in five at one of the two ends of its range.
    pub fn well(&mut self) -> i16 {
        match self.below(10) {
            0 => i16::MAX,
            1 => i16::MIN,
            _ => self.even_well(),
        }
    }

    /// A well, each value as likely as the others.
    pub fn even_well(&mut self) -> i16 {
        (self.word() >> 40) as i16
    }
}

/// Wells as an image holds them.
pub fn bytes_of(wells: &[i16]) -> Vec<u8> {
    wells_of(wells).into_flattened()
}
