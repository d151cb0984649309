//! Distances as a check or a scan makes them: in rows.
use crate::{
    harness::{medians, Way},
    plain_c,
    table::{Line, Table},
};
use plain::{
    data::{bytes_of, Random},
    distance,
    images::{Data, Kind, Order},
};
use std::hint::black_box;

const WIDTHS: [usize; 6] = [1, 4, 5, 8, 12, 16];

/// Rows over `strains` profiles, whose wells lie anywhere in their range and now and then at an end of it.
pub fn time(table: &mut Table, random: &mut Random, strains: usize, rounds: usize) {
    for metric in [1, 2] {
        for wells in WIDTHS {
            let kind = Kind { strains, wells, metric, data: Data::Uniform, codes: Order::Random };
            let values: Vec<i16> = (0..strains * wells).map(|_| random.well()).collect();
            plate_rows(table, kind, &values, rounds);
            pair_rows(table, kind, &values, rounds);
        }
    }
}

/// Nothing is nearer, so that each row is looked at to its end; no compiler may know it.
fn limit() -> u32 {
    black_box(0)
}

fn plate_rows(table: &mut Table, kind: Kind, values: &[i16], rounds: usize) {
    let (image, n, metric) = (bytes_of(values), kind.strains, kind.metric);
    let plates = || values.chunks_exact(kind.wells);
    let ways: [Way; 3] = [
        &|| plates().map(|p| proved::plate_row(metric, &image, 0, p, n, limit()) as u64).sum(),
        &|| plates().map(|p| distance::plate_row(metric, &image, 0, p, n, limit()) as u64).sum(),
        &|| plates().map(|p| plain_c::plate_row(metric, &image, 0, p, n, limit()) as u64).sum(),
    ];
    table.add(Line::new("distance, plate", kind, &medians(&ways, rounds, n * n)));
}

fn pair_rows(table: &mut Table, kind: Kind, values: &[i16], rounds: usize) {
    let (image, n, wells, metric) = (bytes_of(values), kind.strains, kind.wells, kind.metric);
    let places = || (0..n).map(|i| 2 * i * wells);
    let ways: [Way; 3] = [
        &|| places().map(|p| proved::pair_row(metric, &image, p, 0, wells, n, limit()) as u64).sum(),
        &|| places().map(|p| distance::pair_row(metric, &image, p, 0, wells, n, limit()) as u64).sum(),
        &|| places().map(|p| plain_c::pair_row(metric, &image, p, 0, wells, n, limit()) as u64).sum(),
    ];
    table.add(Line::new("distance, pair", kind, &medians(&ways, rounds, n * n)));
}
