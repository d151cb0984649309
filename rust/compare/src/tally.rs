//! How often each answer of each call came.
use crate::{call::Name, order::order};
use plain::verdict::Verdict;
use std::fmt;

/// Of one call: how often it was accepted, and refused by each number and kind of place that it can tell.
struct Tally {
    name: Name,
    counts: Vec<(Verdict, usize)>,
}

pub struct Tallies([Tally; 8]);

impl Tallies {
    pub fn new() -> Self {
        Tallies(Name::ALL.map(Tally::new))
    }

    /// Fails where the call can never be answered so.
    pub fn count(&mut self, name: Name, answer: Verdict) -> Result<(), String> {
        let tally = self.0.iter_mut().find(|tally| tally.name == name).expect("each call has a tally");
        let known = tally.counts.iter_mut().find(|(kind, _)| *kind == answer.kind());
        known.ok_or_else(|| format!("{name} may not be answered {answer:?}"))?.1 += 1;
        Ok(())
    }

    /// Every answer that a call can give must have come, and so must each number from 1 to 20.
    pub fn complete(&self) -> Result<(), String> {
        let missing =
            self.0.iter().flat_map(|tally| tally.counts.iter().filter(|(_, count)| *count == 0).map(|(kind, _)| (tally.name, kind)));
        let missing: Vec<_> = missing.map(|(name, kind)| format!("{name} was never answered {kind}")).collect();
        let absent = (1..=20).filter(|number| self.of_number(*number) == 0).map(|number| format!("no call was refused by {number}"));
        let missing: Vec<_> = missing.into_iter().chain(absent).collect();
        if missing.is_empty() {
            Ok(())
        } else {
            Err(missing.join("; "))
        }
    }

    fn of_number(&self, number: usize) -> usize {
        self.0.iter().flat_map(|tally| &tally.counts).filter(|(kind, _)| kind.number() == number).map(|(_, count)| count).sum()
    }
}

impl Tally {
    fn new(name: Name) -> Self {
        let refusals = order(name).into_iter().flat_map(|number| places(name, number));
        Tally { name, counts: [Verdict::ACCEPTED].into_iter().chain(refusals).map(|kind| (kind, 0)).collect() }
    }
}

/// The refusals of a number, one for each kind of place that it can tell.
fn places(name: Name, number: usize) -> Vec<Verdict> {
    let number = number as u64;
    let (nowhere, record, pair) = (Verdict::nowhere(number), Verdict::at_record(number, 0), Verdict::at_pair(number, 0, 0));
    match (name, number) {
        (Name::Short, _) => vec![nowhere],
        (_, 9 | 11 | 12 | 19) => vec![record],
        (_, 10 | 13) => vec![pair],
        (Name::Add, 18) => vec![nowhere, record],
        _ => vec![nowhere],
    }
}

impl fmt::Display for Tallies {
    fn fmt(&self, f: &mut fmt::Formatter) -> fmt::Result {
        self.0.iter().try_for_each(|tally| writeln!(f, "{tally}"))?;
        write!(f, "all calls: refused by")?;
        (1..=20).try_for_each(|number| write!(f, " {number}: {}", self.of_number(number)))
    }
}

impl fmt::Display for Tally {
    fn fmt(&self, f: &mut fmt::Formatter) -> fmt::Result {
        write!(f, "{}: {} calls alike,", self.name, self.counts.iter().map(|(_, count)| count).sum::<usize>())?;
        for (kind, count) in &self.counts {
            match (kind.number(), kind.0 >> 8) {
                (0, _) => write!(f, " {count} accepted; refused by"),
                (number, 0) => write!(f, " {number}: {count}"),
                (number, 1) => write!(f, " {number} at a record: {count}"),
                (number, _) => write!(f, " {number} at a pair: {count}"),
            }?;
        }
        Ok(())
    }
}

#[cfg(test)]
mod tests {
    use super::*;

    #[test]
    fn an_answer_that_never_came_is_told() {
        let mut tallies = Tallies::new();
        for name in Name::ALL {
            tallies.count(name, Verdict::ACCEPTED).unwrap();
            for refusal in order(name).into_iter().flat_map(|number| places(name, number)).filter(|kind| *kind != Verdict::nowhere(20)) {
                tallies.count(name, refusal).unwrap();
            }
        }
        assert_eq!(tallies.complete().unwrap_err(), "add was never answered refused, 20; no call was refused by 20");
        tallies.count(Name::Add, Verdict::nowhere(20)).unwrap();
        assert_eq!(tallies.complete(), Ok(()));
    }

    #[test]
    fn an_answer_that_may_not_come_is_told() {
        assert!(Tallies::new().count(Name::Check, Verdict::nowhere(14)).is_err());
        assert!(Tallies::new().count(Name::Check, Verdict::at_record(10, 3)).is_err());
        assert!(Tallies::new().count(Name::Short, Verdict::at_record(9, 0)).is_err());
    }
}
