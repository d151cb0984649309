//! The words on the command line.
use std::time::Duration;

pub const USAGE: &str = "usage: fuzz [--seed N] [--seconds N | --calls N | --show CALL]
  --seed N     where the drawing of inputs begins, 1 if not said; the same seed makes the same calls
  --seconds N  end after so long, 20 if nothing is said
  --calls N    end after so many calls
  --show CALL  end after this call, and print what is lent to it before it is made";

pub struct Options {
    pub seed: u64,
    pub end: End,
    pub show: Option<u64>,
}

pub enum End {
    Time(Duration),
    Calls(u64),
}

impl Options {
    /// None if the words are not of that form.
    pub fn read(words: impl IntoIterator<Item = String>) -> Option<Self> {
        let mut options = Options { seed: 1, end: End::Time(Duration::from_secs(20)), show: None };
        let mut words = words.into_iter();
        while let Some(word) = words.next() {
            let number = words.next()?.parse().ok()?;
            match word.as_str() {
                "--seed" => options.seed = number,
                "--seconds" => options.end = End::Time(Duration::from_secs(number)),
                "--calls" => options.end = End::Calls(number),
                "--show" => (options.end, options.show) = (End::Calls(number), Some(number)),
                _ => return None,
            }
        }
        Some(options)
    }
}
