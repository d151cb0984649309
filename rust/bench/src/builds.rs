//! Start, add and filing, beside plain Rust.
use crate::{
    harness::{medians, prepared_medians, Way},
    table::{Line, Table},
};
use plain::{
    data::Random,
    images::{made, Data, Kind, Order, Record},
    layout::length,
    verdict::Verdict,
};
use std::{cell::RefCell, hint::black_box};

type Add = dyn Fn(&mut [u8], usize, u32, &[i16]) -> Verdict;
type File = dyn Fn(&[u8], &mut [u8]) -> Verdict;
type Start = dyn Fn(u32, u32, u32, &[i16], &mut [u8]) -> Verdict;

pub fn time(table: &mut Table, random: &mut Random, rounds: usize) {
    for wells in [1, 16] {
        table.add(start(Kind { strains: 1, wells, metric: 1, data: Data::Uniform, codes: Order::Random }, rounds, random));
    }
    for (strains, metric) in [(16, 1), (256, 1), (1023, 1), (1023, 2)] {
        // a small library takes little time, so that its times scatter more
        let rounds = rounds * 1024 / strains;
        for data in [Data::Uniform, Data::Clustered] {
            table.add(add(Kind { strains, wells: 16, metric, data, codes: Order::Random }, rounds, random));
        }
        for data in [Data::Uniform, Data::Clustered] {
            let kind = Kind { strains, wells: 16, metric, data, codes: Order::Ascending };
            let tree = made(kind, random);
            table.add(filing(kind, &tree.bytes(), rounds).shaped("by code"));
            table.add(filing(kind, &tree.shuffled(random).bytes(), rounds).shaped("shuffled"));
        }
    }
}

fn start(kind: Kind, rounds: usize, random: &mut Random) -> Line {
    const REPEATS: usize = 4096;
    let one = made(kind, random).records.remove(0);
    let buffer = RefCell::new(vec![0; length(1, kind.wells)]);
    let run = |start: &Start| {
        let mut buffer = buffer.borrow_mut();
        let mut started = || start(kind.wells as u32, 1, black_box(one.code), black_box(&one.profile), black_box(&mut buffer));
        (0..REPEATS).map(|_| started().length() as u64).sum()
    };
    let ways: [Way; 2] = [&|| run(&proved::start), &|| run(&plain::start)];
    Line::new("start", kind, &medians(&ways, rounds, REPEATS))
}

/// The calls in one run: enough for a clock, few enough that all that they need stays near the processor.
fn repeats(kind: Kind) -> usize {
    1 + 512 / kind.strains
}

fn add(kind: Kind, rounds: usize, random: &mut Random) -> Line {
    let (image, new) = one_more(kind, random);
    let buffers = RefCell::new(vec![vec![0; length(kind.strains + 1, kind.wells)]; repeats(kind)]);
    let prepare = || buffers.borrow_mut().iter_mut().for_each(|buffer| buffer[..image.len()].copy_from_slice(&image));
    let run = |add: &Add| {
        let mut buffers = buffers.borrow_mut();
        buffers.iter_mut().map(|buffer| add(black_box(buffer), image.len(), new.code, &new.profile).length() as u64).sum()
    };
    let ways: [Way; 2] = [&|| run(&proved::add), &|| run(&plain::add)];
    Line::new("add", kind, &prepared_medians(&prepare, &ways, rounds, repeats(kind)))
}

/// A library and a strain for it: the last one of a library with one more. Its root may stand higher than these strains need.
fn one_more(kind: Kind, random: &mut Random) -> (Vec<u8>, Record) {
    let mut tree = made(Kind { strains: kind.strains + 1, ..kind }, random);
    let new = tree.records.pop().expect("a library has a strain");
    (tree.bytes(), new)
}

fn filing(kind: Kind, image: &[u8], rounds: usize) -> Line {
    let buffer = RefCell::new(vec![0; image.len()]);
    let run = |file: &File| (0..repeats(kind)).map(|_| file(black_box(image), black_box(&mut buffer.borrow_mut())).length() as u64).sum();
    let ways: [Way; 2] = [&|| run(&proved::file), &|| run(&plain::file)];
    Line::new("filing", kind, &medians(&ways, rounds, repeats(kind)))
}
