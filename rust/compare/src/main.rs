//! The tests from outside: the proved library beside plain Rust, on every kind of call. They answer alike and leave all lent memory alike,
//! or the first call on which they do not is told.
mod any;
mod bytes;
mod call;
mod calls;
mod cases;
mod compared;
mod distances;
mod faults;
mod lengths;
mod listing;
mod lists;
mod memory;
mod options;
mod order;
mod random;
mod roots;
mod shorts;
mod tally;

use options::{Options, USAGE};
use plain::data::Random;
use std::process::ExitCode;
use tally::Tallies;

fn main() -> ExitCode {
    let Some(options) = Options::read(std::env::args().skip(1)) else {
        eprintln!("{USAGE}");
        return ExitCode::from(2);
    };
    let compared = match &options.listing {
        Some(program) => listing::compare(program, &mut Random::new(options.seed)),
        None => calls(&options),
    };
    match compared {
        Ok(()) => ExitCode::SUCCESS,
        Err(what) => {
            eprintln!("compare: seed {}: {what}", options.seed);
            ExitCode::FAILURE
        }
    }
}

fn calls(options: &Options) -> Result<(), String> {
    println!("seed {}", options.seed);
    cases::compare()?;
    println!("the listing and C1 to C12: as document 01 says");
    let many = if options.quick { 1 } else { 10 };
    let count = distances::compare(20_000 * many, &mut Random::new(options.seed))?;
    println!("distances and levels: {count} alike");
    let mut tallies = Tallies::new();
    part("changed bytes", 1, options, |_, random| bytes::compare(&mut tallies, random))?;
    part("faults", 2 * many, options, |round, random| faults::compare(round, &mut tallies, random))?;
    part("roots", 10 * many, options, |_, random| roots::compare(&mut tallies, random))?;
    part("lengths", 10 * many, options, |_, random| lengths::compare(&mut tallies, random))?;
    part("long listings", 1, options, |_, random| lists::compare(&mut tallies, random))?;
    part("short calls", 10 * many, options, |_, random| shorts::compare(&mut tallies, random))?;
    part("random calls", 1000 * many, options, |round, random| random::compare(round, &mut tallies, random))?;
    println!("{tallies}");
    tallies.complete()
}

/// So many rounds of a part. Each part draws its own random numbers, by the seed.
fn part(
    name: &str,
    rounds: usize,
    options: &Options,
    mut compare: impl FnMut(usize, &mut Random) -> Result<(), String>,
) -> Result<(), String> {
    let mut random = Random::new(options.seed);
    for round in 0..rounds {
        compare(round, &mut random).map_err(|what| format!("{name}, round {round}: {what}"))?;
    }
    Ok(())
}
