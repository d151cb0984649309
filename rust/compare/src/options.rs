//! What the program is asked to do.

pub const USAGE: &str = "usage: compare [--seed N] [--quick]
       compare listing [--seed N] [--listing PATH]
  (nothing)  compares every call of the library with plain Rust
  --quick    a tenth as many of each
  --seed     other random numbers; the seed is 1 where none is given
  listing    compares the listing program with plain Rust instead; it is target/bin/listing where no path is given";

/// Where the listing program lies, as this program is run from the top of the repository.
const LISTING: &str = "target/bin/listing";

#[derive(Debug, PartialEq)]
pub struct Options {
    pub seed: u64,
    pub quick: bool,
    /// The program to compare, where it is the listing.
    pub listing: Option<String>,
}

impl Options {
    /// Nothing, where the words make no sense.
    pub fn read(words: impl Iterator<Item = String>) -> Option<Self> {
        let mut words = words.peekable();
        let listing = words.next_if(|word| word == "listing").map(|_| LISTING.to_string());
        let mut options = Options { seed: 1, quick: false, listing };
        while let Some(word) = words.next() {
            match word.as_str() {
                "--seed" => options.seed = words.next()?.parse().ok()?,
                "--quick" if options.listing.is_none() => options.quick = true,
                "--listing" if options.listing.is_some() => options.listing = Some(words.next()?),
                _ => return None,
            }
        }
        Some(options)
    }
}

#[cfg(test)]
mod tests {
    use super::*;

    fn read(words: &str) -> Option<Options> {
        Options::read(words.split_whitespace().map(str::to_string))
    }

    #[test]
    fn words_that_make_sense() {
        assert_eq!(read(""), Some(Options { seed: 1, quick: false, listing: None }));
        assert_eq!(read("--quick --seed 7"), Some(Options { seed: 7, quick: true, listing: None }));
        assert_eq!(read("listing"), Some(Options { seed: 1, quick: false, listing: Some(LISTING.into()) }));
        assert_eq!(read("listing --seed 2 --listing there"), Some(Options { seed: 2, quick: false, listing: Some("there".into()) }));
    }

    #[test]
    fn words_that_make_none() {
        assert!(["--seed", "--seed x", "quick", "--listing there", "listing --quick"].iter().all(|words| read(words).is_none()));
    }
}
