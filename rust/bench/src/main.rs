//! Times the proved library beside plain Rust and plain C, in one table, and measures the stack of its calls. Each way of doing the same
//! must come to the same answer in every round, or nothing is told.
mod builds;
mod cases;
mod checks;
mod distances;
mod goals;
mod harness;
mod lists;
mod plain_c;
mod scan;
mod shorts;
mod sittings;
mod slices;
mod stack;
mod table;
mod walk;
mod withins;

use plain::data::Random;
use std::process::ExitCode;

const USAGE: &str = "usage: bench [--quick]
  (nothing)  every case, over many rounds
  --quick    few sizes, over few rounds";

/// How much is done.
struct Effort {
    /// Profiles to time distances of.
    profiles: usize,
    /// Sizes of libraries to time checks of and searches in.
    libraries: &'static [usize],
    /// Rounds of timing.
    rounds: usize,
}

fn main() -> ExitCode {
    let arguments: Vec<String> = std::env::args().skip(1).collect();
    match arguments.iter().map(String::as_str).collect::<Vec<_>>()[..] {
        [] => measure(&Effort { profiles: 1024, libraries: &[16, 64, 256, 1024], rounds: 15 }),
        ["--quick"] => measure(&Effort { profiles: 128, libraries: &[16, 256], rounds: 3 }),
        _ => {
            eprintln!("{USAGE}");
            ExitCode::from(2)
        }
    }
}

fn measure(effort: &Effort) -> ExitCode {
    let mut random = Random::new(1);
    time(effort, &mut random);
    match stack::measure(&mut random) {
        Ok(()) => ExitCode::SUCCESS,
        Err(what) => {
            eprintln!("bench: {what}");
            ExitCode::FAILURE
        }
    }
}

fn time(effort: &Effort, random: &mut Random) {
    let mut table = table::Table::new();
    distances::time(&mut table, random, effort.profiles, effort.rounds);
    checks::time(&mut table, random, effort.libraries, effort.rounds);
    builds::time(&mut table, random, effort.rounds);
    let cases = cases::cases(effort.libraries, random);
    sittings::time(&mut table, &cases, effort.rounds);
    withins::time(&mut table, &cases, effort.rounds);
    shorts::time(&mut table, &cases, effort.rounds);
    lists::time(&mut table, &cases, effort.rounds);
    goals::tell(&table);
}
