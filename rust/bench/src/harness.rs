//! Timing in rounds: each round times every way once, so that a noisy moment falls on all of them, and the median of the rounds counts.
//! The clock stands still while another program has the processor.
use std::hint::black_box;

/// The same work done in one way. It gives a checksum, so that no way can skip the work.
pub type Way<'a> = &'a dyn Fn() -> u64;

/// The nanoseconds a unit that each way takes, `units` being what one run of a way does. The checksums must agree.
pub fn medians(ways: &[Way], rounds: usize, units: usize) -> Vec<f64> {
    prepared_medians(&|| (), ways, rounds, units)
}

/// The same, where `prepare` comes before each run of a way and is not timed.
pub fn prepared_medians(prepare: &dyn Fn(), ways: &[Way], rounds: usize, units: usize) -> Vec<f64> {
    times(prepare, ways, rounds, units).into_iter().map(median).collect()
}

/// The same of each round, way by way.
pub fn times(prepare: &dyn Fn(), ways: &[Way], rounds: usize, units: usize) -> Vec<Vec<f64>> {
    let mut times = vec![Vec::new(); ways.len()];
    for _ in 0..rounds {
        let mut sums = Vec::new();
        for (run, times) in ways.iter().zip(&mut times) {
            prepare();
            let began = clock();
            sums.push(black_box(run()));
            times.push((clock() - began) as f64 / units as f64);
        }
        assert!(sums.iter().all(|s| *s == sums[0]), "the ways disagree: {sums:?}");
    }
    times
}

pub fn median(mut times: Vec<f64>) -> f64 {
    times.sort_by(f64::total_cmp);
    times[times.len() / 2]
}

/// The nanoseconds that this thread has run.
fn clock() -> i64 {
    extern "C" {
        fn clock_gettime(clock: i32, time: *mut [i64; 2]) -> i32;
    }
    const OF_THIS_THREAD: i32 = 3;
    let mut time = [0; 2];
    // SAFETY: on Linux on x86-64 a time is two 64-bit numbers, seconds and nanoseconds.
    let failed = unsafe { clock_gettime(OF_THIS_THREAD, &mut time) };
    assert!(failed == 0, "the thread has no clock");
    time[0] * 1_000_000_000 + time[1]
}
