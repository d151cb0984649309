//! What the searches were meant to reach in the largest libraries.
use crate::table::{Line, Table};

pub fn tell(table: &Table) {
    let largest = |line: &&Line| line.n == 1024;
    let sittings = table.lines.iter().filter(largest).filter(|line| line.call.ends_with("m=64"));
    let walks = table.lines.iter().filter(largest).filter(|line| line.call.starts_with("walk") && line.shape == "species");
    goal("a sitting of 64 plates in 1024 strains, to plain C", sittings.filter_map(|line| line.to_c), 0.7);
    goal("the walk alone in 1024 strains of species, to plain Rust", walks.filter_map(|line| line.to_rust), 0.5);
}

/// Says whether every ratio is small enough. Where there is none, nothing was timed that the goal speaks of.
fn goal(what: &str, ratios: impl Iterator<Item = f64>, most: f64) {
    let ratios: Vec<_> = ratios.collect();
    let above = ratios.iter().filter(|ratio| **ratio > most).count();
    if let Some(worst) = ratios.iter().copied().reduce(f64::max) {
        let verdict = if above == 0 { "met".into() } else { format!("not met in {above} of {} cases", ratios.len()) };
        println!("goal: {what}: at most {most:.2}; at worst {worst:.2}, {verdict}");
    }
}
