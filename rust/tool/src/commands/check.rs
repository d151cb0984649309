//! Whether images are libraries, and if not, why not.
use super::Command;
use crate::{
    end::{self, Done, End, Exit},
    image::{self, facts, Checked},
    read, refused,
    words::Words,
};
use std::{
    ffi::OsStr,
    io::{self, Write},
};

pub const COMMAND: Command = Command {
    name: "check",
    usage: "FILE..",
    summary: "says whether images are accepted, and why one is refused",
    help: &["
Of an accepted image it tells the wells, the metric, how many strains it holds, the root's code,
and the depth: how many records stand on the longest way from a strain to the root, both
counted. Of a refused one it tells the number of the refusal, its name, the record or records
where it applies (counted from 0), and the figures that show it. `kwalgimo explain NUMBER` tells
the rule. Below it the records are shown as they were read.

Of several files the exit status is the worst: 2 where one cannot be read, else 1 where one is
refused.
"],
    switches: &[],
    options: &[],
    run,
};

fn run(command: &Command, words: &Words, out: &mut dyn Write) -> Done {
    if words.plain().is_empty() {
        return Err(command.misused("it takes a file or more"));
    }
    let (mut worst, mut written) = (Exit::Done, Ok(()));
    for file in words.plain() {
        // a file that cannot be read does not keep the others from being checked
        let (exit, said) = check(file).unwrap_or_else(|End { exit, why }| {
            _ = writeln!(io::stderr(), "kwalgimo: {why}");
            (exit, String::new())
        });
        worst = worst.max(exit);
        written = written.and_then(|()| out.write_all(said.as_bytes())).and_then(|()| out.flush());
    }
    end::told(written, worst)
}

/// The lines on one file.
fn check(file: &OsStr) -> Result<(Exit, String), End> {
    let name = read::name(file);
    let Checked { bytes, library } = image::checked(file)?;
    Ok(match library {
        Ok(library) => (Exit::Done, format!("{name}: accepted: {}\n", facts(&library))),
        Err(refusal) => {
            let read = refused::as_read(&bytes, refusal).concat();
            (Exit::Refused, format!("{name}: {}\n{read}", refused::image(&bytes, refusal)))
        }
    })
}
