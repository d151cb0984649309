//! Distances and fitting levels, by the doors to the library's inside.
use plain::{
    data::{bytes_of, Random},
    distance, level,
};

/// Compares `rounds` random distances of each form, and all levels. Gives how many comparisons were made.
pub fn compare(rounds: usize, random: &mut Random) -> Result<usize, String> {
    let wells: Vec<i16> = (0..4096).map(|_| random.well()).collect();
    let image = bytes_of(&wells);
    for _ in 0..rounds {
        // 0 and 3 are no metrics; in bytes a profile may stand at an odd place; a row of one under the largest limit is one distance
        let (metric, count) = (random.below(4) as u8, random.below(17));
        let (a, b, p, q) = (random.below(4080), random.below(4080), random.below(8000), random.below(8000));
        let (row, limit) = if random.below(2) == 0 { (1, u32::MAX) } else { (random.below(6), random.below(600_000) as u32) };
        let (xs, ys) = (&wells[a..a + count], &wells[b..b + count]);
        let what = |form| format!("{form}: metric {metric}, {count} wells at {a}, {b}, {p}, {q}, {row} under {limit}");
        same(&|| what("two lists"), proved::lists(metric, xs, ys), distance::lists(metric, xs, ys))?;
        let (ours, plain) = (proved::plate_row(metric, &image, p, ys, row, limit), distance::plate_row(metric, &image, p, ys, row, limit));
        same(&|| what("a row beside a plate"), ours, plain)?;
        let (ours, plain) =
            (proved::pair_row(metric, &image, p, q, count, row, limit), distance::pair_row(metric, &image, p, q, count, row, limit));
        same(&|| what("a row beside a profile"), ours, plain)?;
    }
    for d in (1..=1_048_560).chain((0..rounds).map(|_| random.number().max(1))) {
        same(&|| format!("the fitting level of {d}"), proved::level(d), level::fitting(d))?;
    }
    Ok(4 * rounds + 1_048_560)
}

fn same<T: PartialEq + std::fmt::Debug>(what: &dyn Fn() -> String, ours: T, plain: T) -> Result<(), String> {
    if ours == plain {
        Ok(())
    } else {
        Err(format!("{}: the library answers {ours:?}, plain Rust {plain:?}", what()))
    }
}
