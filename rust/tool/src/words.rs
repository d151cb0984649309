//! The words behind a command's name, sorted into options and the rest.
use crate::{commands::Command, end::End, numbers};
use std::{
    ffi::{OsStr, OsString},
    slice::Iter,
};

/// What a command was given.
#[derive(Debug, Default)]
pub struct Words {
    /// The words that are no options, in order.
    plain: Vec<OsString>,
    /// The options with their values; a switch has none.
    options: Vec<(&'static str, Option<OsString>)>,
}

impl Words {
    /// Sorts a command's words. What stands behind `--` is no option, and neither is a number, which may begin with a minus.
    pub fn of(command: &Command, words: &[OsString]) -> Result<Self, End> {
        let mut sorted = Words::default();
        let mut words = words.iter();
        while let Some(word) = words.next() {
            if word == "--" {
                sorted.plain.extend(words.cloned());
                return Ok(sorted);
            }
            match option_name(word) {
                None => sorted.plain.push(word.clone()),
                Some(name) => sorted.take(command, name, &mut words)?,
            }
        }
        Ok(sorted)
    }

    fn take(&mut self, command: &Command, word: &str, rest: &mut Iter<OsString>) -> Result<(), End> {
        let (name, joined) = word.split_once('=').map_or((word, None), |(name, value)| (name, Some(OsString::from(value))));
        if let Some(switch) = command.switches.iter().find(|switch| **switch == name && joined.is_none()) {
            return self.push(command, switch, None);
        }
        let Some(option) = command.options.iter().find(|option| **option == name) else {
            return Err(command.misused(format!("no option {word}")));
        };
        match joined.or_else(|| rest.next().cloned()) {
            Some(value) => self.push(command, option, Some(value)),
            None => Err(command.misused(format!("{name} wants a word behind it"))),
        }
    }

    fn push(&mut self, command: &Command, name: &'static str, value: Option<OsString>) -> Result<(), End> {
        if self.has(name) {
            return Err(command.misused(format!("{name} is given twice")));
        }
        self.options.push((name, value));
        Ok(())
    }

    pub fn has(&self, name: &str) -> bool {
        self.options.iter().any(|(option, _)| *option == name)
    }

    pub fn option(&self, name: &str) -> Option<&OsStr> {
        self.options.iter().find(|(option, _)| *option == name)?.1.as_deref()
    }

    pub fn plain(&self) -> &[OsString] {
        &self.plain
    }
}

/// None of a word that is no option: a file, `-` for standard input, or a number.
fn option_name(word: &OsStr) -> Option<&str> {
    let word = word.to_str()?;
    (word.starts_with('-') && word != "-" && !numbers::begins(word)).then_some(word)
}
