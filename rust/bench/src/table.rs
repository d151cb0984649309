//! The one table: a line for each case that was timed.
use plain::images::Kind;
use std::fmt::Display;

pub struct Line {
    pub call: String,
    pub n: usize,
    pub wells: usize,
    pub metric: u8,
    /// The shape of the data, and the order of codes or records where it is told apart.
    pub shape: String,
    pub nanoseconds: f64,
    pub to_rust: Option<f64>,
    pub to_c: Option<f64>,
    /// The share of profiles measured.
    pub measured: Option<f64>,
}

impl Line {
    /// Of a call in a library of this kind: the times are the proved library's and plain Rust's and, where there is one, plain C's.
    pub fn new(call: impl Display, kind: Kind, times: &[f64]) -> Self {
        let Kind { strains: n, wells, metric, data, .. } = kind;
        let ratio = |other: usize| times.get(other).map(|time| times[0] / time);
        let shape = format!("{data:?}").to_lowercase();
        let (to_rust, to_c) = (ratio(1), ratio(2));
        Line { call: call.to_string(), n, wells, metric, shape, nanoseconds: times[0], to_rust, to_c, measured: None }
    }

    /// With a word more on the data.
    pub fn shaped(mut self, word: &str) -> Self {
        self.shape = format!("{} {word}", self.shape);
        self
    }

    pub fn measuring(self, share: f64) -> Self {
        Line { measured: Some(share), ..self }
    }
}

/// Each line is printed as it comes, and kept.
pub struct Table {
    pub lines: Vec<Line>,
}

impl Table {
    pub fn new() -> Self {
        println!("ratios are the proved library's time to that of plain Rust and of plain C: below 1 the proved library is faster");
        row(["call", "n", "w", "metric", "data", "time", "/ Rust", "/ C", "measured"]);
        Table { lines: Vec::new() }
    }

    pub fn add(&mut self, line: Line) {
        let share = |number: Option<f64>| number.map_or("-".into(), |number| format!("{number:.2}"));
        row([
            &line.call,
            &line.n.to_string(),
            &line.wells.to_string(),
            &line.metric.to_string(),
            &line.shape,
            &told(line.nanoseconds),
            &share(line.to_rust),
            &share(line.to_c),
            &share(line.measured),
        ]);
        self.lines.push(line);
    }
}

fn row([call, n, wells, metric, shape, time, to_rust, to_c, measured]: [&str; 9]) {
    println!("{call:<18} {n:>5} {wells:>3} {metric:>6}  {shape:<18} {time:>10} {to_rust:>7} {to_c:>7} {measured:>9}");
}

fn told(nanoseconds: f64) -> String {
    if nanoseconds < 1e3 {
        format!("{nanoseconds:.2} ns")
    } else {
        format!("{:.2} us", nanoseconds / 1e3)
    }
}

#[cfg(test)]
mod tests {
    use super::*;
    use plain::images::{Data, Order};

    #[test]
    fn a_ratio_below_one_is_the_proved_library_faster() {
        let kind = Kind { strains: 16, wells: 4, metric: 1, data: Data::Tied, codes: Order::Random };
        let line = Line::new("check", kind, &[1.0, 2.0]);
        assert_eq!((line.to_rust, line.to_c, line.shape.as_str()), (Some(0.5), None, "tied"));
    }

    #[test]
    fn a_time_is_told_in_its_unit() {
        assert_eq!([told(5.254), told(1_234_567.0)], ["5.25 ns", "1234.57 us"]);
    }
}
