//! How often each call was answered by each number.
use crate::call::{number_of, Answer};
use std::{collections::BTreeMap, fmt};

#[derive(Default)]
pub struct Tally(BTreeMap<&'static str, BTreeMap<u8, u64>>);

impl Tally {
    pub fn count(&mut self, call: &'static str, answer: &Answer) {
        *self.0.entry(call).or_default().entry(number_of(answer)).or_default() += 1;
    }
}

impl fmt::Display for Tally {
    fn fmt(&self, f: &mut fmt::Formatter) -> fmt::Result {
        for (call, counts) in &self.0 {
            write!(f, "{call}: {} calls;", counts.values().sum::<u64>())?;
            for (number, count) in counts {
                match number {
                    0 => write!(f, " {count} not refused;"),
                    _ => write!(f, " by {number} {count}"),
                }?;
            }
            writeln!(f)?;
        }
        Ok(())
    }
}
