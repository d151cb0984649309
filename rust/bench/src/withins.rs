//! Searches within a radius.
use crate::{
    cases::Case,
    harness::{prepared_medians, Way},
    plain_c,
    slices::Slices,
    table::{Line, Table},
};
use plain::{distance, verdict::Verdict};
use std::hint::black_box;

type Within<'a> = &'a dyn Fn(&[u8], &[i16], u32, &mut [u32], &mut [u32]) -> Verdict;

/// Each radius is that of a plate's nearest strain, of the nearest tenth, half, or all.
pub fn time(table: &mut Table, cases: &[Case], rounds: usize) {
    for case in cases {
        let last = case.kind.strains - 1;
        for (name, rank) in [("nearest", 0), ("tenth", last / 10), ("half", last / 2), ("all", last)] {
            table.add(timed(case, name, rank, rounds));
        }
    }
}

fn timed(case: &Case, name: &str, rank: usize, rounds: usize) -> Line {
    let searches: Vec<_> = case.first(4).chunks_exact(case.kind.wells).map(|plate| (plate, radius(case, plate, rank))).collect();
    let lent = Slices::new(case.kind.strains);
    let run = |within: Within| {
        let search = |(plate, radius): &(&[i16], u32)| {
            lent.sum_after(|codes, distances| within(black_box(&case.image), black_box(plate), *radius, codes, distances).strains())
        };
        (0..case.repeats()).flat_map(|_| &searches).map(search).sum()
    };
    let ways: [Way; 3] = [&|| run(&proved::within), &|| run(&plain::within), &|| run(&plain_c::within)];
    let times = prepared_medians(&|| lent.wipe(), &ways, rounds, case.repeats() * searches.len());
    Line::new(format!("within r={name}"), case.kind, &times).measuring(measured(case, &searches))
}

/// The distance of the strain that so many are nearer than.
fn radius(case: &Case, plate: &[i16], rank: usize) -> u32 {
    let distance = |profile: &[i16]| distance::lists(case.kind.metric, profile, plate);
    let mut distances: Vec<_> = case.tree.records.iter().map(|v| distance(&v.profile)).collect();
    distances.sort_unstable();
    distances[rank]
}

/// The share of all profiles that is measured.
fn measured(case: &Case, searches: &[(&[i16], u32)]) -> f64 {
    let n = case.kind.strains;
    let (mut codes, mut distances) = (vec![0; n], vec![0; n]);
    let mut count = |(plate, radius): &(&[i16], u32)| proved::within(&case.image, plate, *radius, &mut codes, &mut distances).measured();
    searches.iter().map(&mut count).sum::<usize>() as f64 / (n * searches.len()) as f64
}
