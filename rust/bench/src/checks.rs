//! Whole checks of accepted images.
use crate::{
    harness::{medians, Way},
    plain_c,
    table::{Line, Table},
};
use plain::{
    data::Random,
    images::{made, Data, Kind, Order},
    verdict::Verdict,
};
use std::hint::black_box;

/// For each number of strains, width, metric and data; in the largest libraries with codes in ascending order too.
pub fn time(table: &mut Table, random: &mut Random, sizes: &[usize], rounds: usize) {
    for &strains in sizes {
        for (wells, metric) in [(4, 1), (4, 2), (12, 1), (12, 2), (16, 1), (16, 2)] {
            for data in [Data::Uniform, Data::Clustered] {
                let kind = Kind { strains, wells, metric, data, codes: Order::Random };
                table.add(timed(kind, rounds, random));
                if strains == 1024 {
                    table.add(timed(Kind { codes: Order::Ascending, ..kind }, rounds, random).shaped("by code"));
                }
            }
        }
    }
}

fn timed(kind: Kind, rounds: usize, random: &mut Random) -> Line {
    let image = made(kind, random).bytes();
    assert_eq!(plain::check(&image), Verdict::ACCEPTED);
    let pairs = kind.strains * (kind.strains - 1) / 2;
    let repeats = 1 + 500_000 / pairs;
    // no compiler may know that it is the same image each time
    let run = |check: &dyn Fn(&[u8]) -> Verdict| (0..repeats).map(|_| check(black_box(&image)).0).sum();
    let ways: [Way; 3] = [&|| run(&proved::check), &|| run(&plain::check), &|| run(&plain_c::check)];
    Line::new("check", kind, &medians(&ways, rounds, repeats))
}
