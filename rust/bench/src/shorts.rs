//! The short call of a host program.
use crate::{
    cases::Case,
    harness::{prepared_medians, Way},
    plain_c, scan,
    table::{Line, Table},
    walk,
};
use plain::data::bytes_of;
use std::{cell::RefCell, hint::black_box};

type Short<'a> = &'a dyn Fn(&[u8], &[u8], &mut [u8]);

pub fn time(table: &mut Table, cases: &[Case], rounds: usize) {
    for case in cases {
        table.add(timed(case, rounds));
    }
}

fn timed(case: &Case, rounds: usize) -> Line {
    let plate = bytes_of(case.first(1));
    let out = RefCell::new([0; 40]);
    let run = |short: Short| {
        let call = || {
            let mut out = out.borrow_mut();
            short(black_box(&case.image), black_box(&plate), &mut *out);
            out.iter().map(|byte| *byte as u64).sum::<u64>()
        };
        (0..case.repeats()).map(|_| call()).sum()
    };
    let ways: [Way; 3] =
        [&|| run(&|image, plate, out| _ = proved::short(image, plate, out)), &|| run(&scan::short), &|| run(&plain_c::short)];
    let times = prepared_medians(&|| out.borrow_mut().fill(0), &ways, rounds, case.repeats());
    Line::new("short", case.kind, &times).measuring(walk::measured(case, 5, 1))
}
