//! What came of a self-test.
use super::{rules, Tried};
use std::collections::HashSet;

#[derive(Debug, Default)]
pub struct Report {
    /// How many strains the library holds. Each profile counts for each rule: one that is not tried does not hold.
    pub strains: usize,
    /// Of each rule, from how many profiles it held.
    pub held: [usize; rules::ALL.len()],
    /// The first that did not hold, in words.
    pub findings: Vec<String>,
    /// The codes that a search within the greatest distance did not list.
    missing: HashSet<u32>,
}

/// How many findings are told.
const FEW: usize = 10;

impl Report {
    pub fn new(strains: usize) -> Self {
        Report { strains, ..Report::default() }
    }

    pub fn take(&mut self, tried: &Tried) {
        for (rule, held) in rules::ALL.iter().zip(&mut self.held) {
            match (rule.holds)(tried) {
                Ok(()) => *held += 1,
                Err(why) if self.findings.len() < FEW => {
                    self.findings.push(format!("from the profile of {} it is not so that {}: {why}", tried.code, rule.says));
                }
                Err(_) => (),
            }
        }
        self.look_for_all(tried);
    }

    fn look_for_all(&mut self, tried: &Tried) {
        for all in [&tried.library.all, &tried.form.all] {
            let listed: HashSet<_> = all.iter().flatten().map(|strain| strain.code).collect();
            self.missing.extend(tried.codes.iter().filter(|code| !listed.contains(code)));
        }
    }

    /// How many strains were listed from every profile, by the library and by its filing form.
    pub fn found(&self) -> usize {
        self.strains - self.missing.len()
    }

    /// How many tries there were: each rule from each profile.
    pub fn tries(&self) -> usize {
        self.held.len() * self.strains
    }

    /// How many of them did not hold.
    pub fn broken(&self) -> usize {
        self.tries() - self.held.iter().sum::<usize>()
    }
}
