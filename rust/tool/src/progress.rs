//! How far long work has come, on standard error, where a person sits before it.
use std::{
    io::{self, IsTerminal, Write},
    time::{Duration, Instant},
};

/// Nothing is said before a second has passed.
const PATIENCE: Duration = Duration::from_secs(1);
/// How often the line is written anew.
const PACE: Duration = Duration::from_millis(100);

/// A line that tells how much of the work is done. It goes away with the work.
pub struct Progress<W: Write> {
    to: Option<W>,
    what: &'static str,
    next: Instant,
    shown: bool,
}

impl Progress<io::Stderr> {
    pub fn new(what: &'static str) -> Self {
        let error = io::stderr();
        Progress::to(error.is_terminal().then_some(error), what, Instant::now())
    }
}

impl<W: Write> Progress<W> {
    fn to(to: Option<W>, what: &'static str, begun: Instant) -> Self {
        Progress { to, what, next: begun + PATIENCE, shown: false }
    }

    pub fn step(&mut self, done: usize, of: usize) {
        self.step_at(Instant::now(), done, of);
    }

    /// A line that cannot be written is left out: the work goes on.
    fn step_at(&mut self, now: Instant, done: usize, of: usize) {
        let Some(to) = &mut self.to else { return };
        if now >= self.next {
            _ = write!(to, "\r{}: {done} of {of}\x1b[K", self.what).and_then(|()| to.flush());
            self.next = now + PACE;
            self.shown = true;
        }
    }
}

impl<W: Write> Drop for Progress<W> {
    fn drop(&mut self) {
        if let (true, Some(to)) = (self.shown, &mut self.to) {
            _ = write!(to, "\r\x1b[K").and_then(|()| to.flush());
        }
    }
}

#[cfg(test)]
mod tests {
    use super::*;

    /// What is written where steps come so many milliseconds after the work has begun.
    fn shown(steps: &[u64]) -> String {
        let (mut to, begun) = (Vec::new(), Instant::now());
        let mut progress = Progress::to(Some(&mut to), "strains", begun);
        for (done, after) in (1..).zip(steps) {
            progress.step_at(begun + Duration::from_millis(*after), done, 40);
        }
        drop(progress);
        String::from_utf8(to).unwrap()
    }

    #[test]
    fn short_work_is_silent() {
        assert_eq!(shown(&[1, 500, 999]), "");
    }

    #[test]
    fn long_work_tells_how_far_it_is_and_clears_its_line() {
        assert_eq!(shown(&[500, 1_000]), "\rstrains: 2 of 40\x1b[K\r\x1b[K");
    }

    #[test]
    fn the_line_is_not_written_at_every_step() {
        assert_eq!(shown(&[1_000, 1_050, 1_099, 1_100]), "\rstrains: 1 of 40\x1b[K\rstrains: 4 of 40\x1b[K\r\x1b[K");
    }
}
