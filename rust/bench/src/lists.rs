//! Listings, beside plain Rust.
use crate::{
    cases::Case,
    harness::{medians, Way},
    table::{Line, Table},
};
use plain::{verdict::Verdict, LISTING_BYTES};
use std::{cell::RefCell, hint::black_box};

type List = dyn Fn(&[u8], &mut [u8]) -> Verdict;

pub fn time(table: &mut Table, cases: &[Case], rounds: usize) {
    cases.iter().for_each(|case| table.add(timed(case, rounds)));
}

fn timed(case: &Case, rounds: usize) -> Line {
    let room = RefCell::new(vec![0; LISTING_BYTES]);
    let listed = |list: &List| list(black_box(&case.image), black_box(&mut room.borrow_mut())).length() as u64;
    let run = |list: &List| (0..case.repeats()).map(|_| listed(list)).sum();
    let ways: [Way; 2] = [&|| run(&proved::list), &|| run(&plain::list)];
    Line::new("list", case.kind, &medians(&ways, rounds, case.repeats()))
}
