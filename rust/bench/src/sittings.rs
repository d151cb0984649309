//! Sittings, and the walk in them.
use crate::{
    cases::Case,
    harness::{median, times, Way},
    plain_c, scan,
    slices::Slices,
    table::{Line, Table},
    walk,
};
use std::hint::black_box;

type Sitting<'a> = &'a dyn Fn(&[u8], &[i16], usize, &mut [u32], &mut [u32]);

/// A sitting of one plate and of 64, each with its check; and the walk alone, a plate: what each of 63 plates more takes. The walk is
/// measured beside a scan with no tree and no check.
pub fn time(table: &mut Table, cases: &[Case], rounds: usize) {
    for case in cases {
        for k in [1, 5, 32] {
            in_case(table, case, k, rounds);
        }
    }
}

fn in_case(table: &mut Table, case: &Case, k: usize, rounds: usize) {
    let (one, all) = (case.first(1), case.first(64));
    let lent = Slices::new(64 * k);
    let run = |sitting: Sitting, plates: &[i16]| -> u64 {
        let serve = |codes: &mut [u32], distances: &mut [u32]| {
            // no compiler may know that it is the same each time
            sitting(black_box(&case.image), black_box(plates), k, codes, distances);
            plates.len() / case.kind.wells * k
        };
        (0..case.repeats()).map(|_| lent.sum_after(serve)).sum()
    };
    let ours: Sitting = &|image, plates, k, codes, distances| _ = proved::sitting(image, plates, k as u32, codes, distances);
    let c: Sitting = &|image, plates, k, codes, distances| _ = plain_c::sitting(image, plates, k as u32, codes, distances);
    // runs of one plate and of all become comparable by what they should sum up to
    let (one_sum, all_sum) = (run(&scan::nearest, one), run(&scan::nearest, all));
    let ways: [Way; 8] = [
        &|| run(ours, one) - one_sum,
        &|| run(&scan::sitting, one) - one_sum,
        &|| run(c, one) - one_sum,
        &|| run(ours, all) - all_sum,
        &|| run(&scan::sitting, all) - all_sum,
        &|| run(c, all) - all_sum,
        &|| run(&scan::nearest, all) - all_sum,
        &|| run(&plain_c::nearest, all) - all_sum,
    ];
    // the walk may be a small part of a sitting, and then it takes many rounds to show
    let times = times(&|| lent.wipe(), &ways, 3 * rounds, case.repeats());
    let more = times[3].iter().zip(&times[0]).map(|(all, one)| all - one).collect();
    let t: Vec<_> = times.into_iter().map(median).collect();
    let scans = [median(more) / 63.0, t[6] / 64.0, t[7] / 64.0];
    let (share_of_one, share) = (walk::measured(case, k, 1), walk::measured(case, k, 64));
    table.add(Line::new(format!("sitting k={k} m=1"), case.kind, &t[..3]).measuring(share_of_one));
    table.add(Line::new(format!("sitting k={k} m=64"), case.kind, &t[3..6]).measuring(share));
    table.add(Line::new(format!("walk k={k}"), case.kind, &scans).measuring(share));
}
