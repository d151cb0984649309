//! The commands, and which one the first word asks for.
mod add;
mod check;
mod explain;
mod file;
mod list;
mod matching;
mod selftest;
mod show;
mod start;
mod texts;
mod within;

use crate::{
    end::{Done, End, Exit},
    image,
    numbers::counted,
    words::Words,
};
use std::{
    ffi::OsString,
    io::{self, Write},
};

/// What a command is called, how it is called up, and what it does.
pub struct Command {
    pub name: &'static str,
    /// The words behind the name. Of several ways to call it, one a line.
    pub usage: &'static str,
    /// What it does, in one line of the overview.
    pub summary: &'static str,
    /// The rest of its help, part by part.
    pub help: &'static [&'static str],
    /// Options without a value, and with one.
    pub switches: &'static [&'static str],
    pub options: &'static [&'static str],
    pub run: fn(&Command, &Words, &mut dyn Write) -> Done,
}

const ALL: [&Command; 10] = [
    &check::COMMAND,
    &list::COMMAND,
    &start::COMMAND,
    &add::COMMAND,
    &file::COMMAND,
    &matching::COMMAND,
    &within::COMMAND,
    &show::COMMAND,
    &selftest::COMMAND,
    &explain::COMMAND,
];

impl Command {
    /// Words that the command cannot use.
    pub fn misused(&self, why: impl AsRef<str>) -> End {
        End::bad(format!("{}: {}\n{}", self.name, why.as_ref(), self.usages("usage: ")))
    }

    /// As many words as the usage names.
    pub fn exactly<'a, const N: usize>(&self, words: &'a Words) -> Result<&'a [OsString; N], End> {
        words
            .plain()
            .try_into()
            .map_err(|_| self.misused(format!("it takes {} besides options, and got {}", counted(N, "word"), words.plain().len())))
    }

    fn usages(&self, before: &str) -> String {
        let lines = self.usage.lines().map(|usage| format!("kwalgimo {} {usage}", self.name));
        lines.map(|line| format!("{before}{line}")).collect::<Vec<_>>().join("\n")
    }
}

const LAST_WORDS: &str = "
A file is named by its path; `-` is standard input. Files are written whole or not at all.
`kwalgimo COMMAND --help` tells more of a command.

exit status   0 done
              1 refused, by a number of the table that `kwalgimo explain` shows; or a
                selftest did not hold
              2 the words or files cannot be used
";

const OVERVIEW: &str = "`kwalgimo --help` tells which there are";

pub fn run(words: &[OsString], out: &mut dyn Write) -> Done {
    let Some((first, rest)) = words.split_first() else { return Err(End::bad(format!("no command is given; {OVERVIEW}"))) };
    match (first.to_str(), rest) {
        (Some("--help" | "-h" | "help"), []) => write!(out, "{}", overview())?,
        (Some("--help" | "-h" | "help"), [name]) => write!(out, "{}", help(found(name)?))?,
        (Some("--version" | "-V"), []) => version(out)?,
        _ => return called(found(first)?, rest, out),
    }
    Ok(Exit::Done)
}

fn version(out: &mut dyn Write) -> io::Result<()> {
    writeln!(out, "kwalgimo {}\nimage editions: {}", env!("CARGO_PKG_VERSION"), image::editions())
}

fn called(command: &Command, words: &[OsString], out: &mut dyn Write) -> Done {
    let mut before_others = words.iter().take_while(|word| *word != "--");
    if before_others.any(|word| word == "--help" || word == "-h") {
        write!(out, "{}", help(command))?;
        return Ok(Exit::Done);
    }
    (command.run)(command, &Words::of(command, words)?, out)
}

fn found(name: &OsString) -> Result<&'static Command, End> {
    let known = ALL.into_iter().find(|command| name == command.name);
    known.ok_or_else(|| End::bad(format!("there is no command {}; {OVERVIEW}", name.to_string_lossy())))
}

fn overview() -> String {
    let lines = ALL.map(|command| format!("  {:<9} {}\n", command.name, command.summary));
    format!("kwalgimo: which strains of a library lie nearest to a plate\n\n{}{LAST_WORDS}", lines.concat())
}

fn help(command: &Command) -> String {
    format!("{}\n\nIt {}.\n{}", command.usages(""), command.summary, command.help.concat())
}

#[cfg(test)]
mod tests {
    use super::*;

    #[test]
    fn each_command_has_its_help_and_says_what_it_takes() {
        for command in ALL {
            let help = command.help.concat();
            assert!(help.starts_with('\n') && help.ends_with('\n') && help.lines().all(|line| line.len() <= 100), "{help}");
            for option in command.options.iter().chain(command.switches) {
                assert!(command.usage.contains(option) && help.contains(option), "{} {option}", command.name);
            }
        }
    }
}
