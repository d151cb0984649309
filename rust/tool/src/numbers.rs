//! Numbers as people write them.
use crate::{csv, end::End};
use std::{ffi::OsStr, str::FromStr};

/// Of a word that may be a number: a digit, or a sign before one.
pub fn begins(word: &str) -> bool {
    word.trim_start_matches(['-', '+']).starts_with(|first: char| first.is_ascii_digit())
}

/// A whole number that 32 bits hold: a code, a radius, a count. The library tells whether it is allowed; what is, stands in the sentence.
pub fn whole(word: &OsStr, what: &str, allowed: &str) -> Result<u32, End> {
    let word = word.to_string_lossy();
    parsed(&word).ok_or_else(|| End::bad(format!("{what} has to be a whole number, {allowed}, and not `{}`", shown(&word))))
}

/// The value of a well.
pub fn well(word: &str) -> Result<i16, String> {
    match word.trim() {
        "" => Err("a value is missing".into()),
        word => parsed(word)
            .ok_or_else(|| format!("`{}` is not the value of a well, which is a whole number from -32,768 to 32,767", shown(word))),
    }
}

/// The values of the wells of one plate or profile, in one word or more, with commas, semicolons or spaces between.
pub fn wells<'a>(words: impl IntoIterator<Item = &'a OsStr>) -> Result<Vec<i16>, String> {
    let mut values = Vec::new();
    for word in words {
        let word = word.to_string_lossy();
        match csv::mark(&word) {
            Some(mark) => values.extend(word.split(mark).map(well)),
            None => values.extend(word.split_whitespace().map(well)),
        }
    }
    values.into_iter().collect()
}

/// A word as a sentence has it: not so long that the sentence is lost.
pub fn shown(word: &str) -> String {
    match word.char_indices().nth(40) {
        Some((end, _)) => format!("{}..", &word[..end]),
        None => word.into(),
    }
}

pub fn parsed<N: FromStr>(word: &str) -> Option<N> {
    word.trim().parse().ok()
}

/// A limit with commas between thousands, as documents have it. Numbers that were read or measured have none.
pub fn grouped(number: usize) -> String {
    let digits = number.to_string();
    let mut said = String::new();
    for (at, digit) in digits.chars().enumerate() {
        if at > 0 && (digits.len() - at).is_multiple_of(3) {
            said.push(',');
        }
        said.push(digit);
    }
    said
}

/// `1 strain`, `4 strains`.
pub fn counted(count: usize, thing: &str) -> String {
    let plural = if count == 1 { "" } else { "s" };
    format!("{count} {thing}{plural}")
}

#[cfg(test)]
mod tests {
    use super::*;

    #[test]
    fn thousands_are_grouped() {
        for (number, said) in [(0, "0"), (999, "999"), (1_000, "1,000"), (40_976, "40,976"), (1_048_560, "1,048,560")] {
            assert_eq!(grouped(number), said);
        }
    }

    #[test]
    fn a_minus_before_a_digit_begins_a_number() {
        assert!(begins("-31") && begins("7") && begins("+7") && begins("-31,4"));
        assert!(!begins("-k") && !begins("--names") && !begins("-") && !begins("") && !begins("plates.csv"));
    }

    #[test]
    fn wells_in_one_word_or_more() {
        let read = |words: &[&str]| wells(words.iter().map(OsStr::new));
        assert_eq!(read(&["1,-2", "3"]), Ok(vec![1, -2, 3]));
        assert_eq!(read(&["1 2  3"]), Ok(vec![1, 2, 3]));
        assert_eq!(read(&["1;2"]), Ok(vec![1, 2]));
        assert_eq!(read(&["1, 2 ,3"]), Ok(vec![1, 2, 3]));
        assert_eq!(read(&["1,,3"]), Err("a value is missing".into()));
        assert_eq!(read(&["1,2,"]), Err("a value is missing".into()));
        assert_eq!(read(&[]), Ok(vec![]));
        assert_eq!(read(&["32768"]), Err("`32768` is not the value of a well, which is a whole number from -32,768 to 32,767".into()));
        assert!(read(&["1.5"]).is_err() && read(&["one"]).is_err());
    }

    #[test]
    fn a_long_word_is_cut() {
        let why = well(&"x".repeat(1_000)).unwrap_err();
        assert!(why.starts_with(&format!("`{}..` is not", "x".repeat(40))), "{why}");
        assert_eq!(shown("\u{6c34}".repeat(41).as_str()), format!("{}..", "\u{6c34}".repeat(40)));
    }

    #[test]
    fn one_and_many() {
        assert_eq!(counted(1, "strain"), "1 strain");
        assert_eq!(counted(1_024, "strain"), "1024 strains");
    }
}
