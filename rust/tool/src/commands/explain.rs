//! The table of refusals.
use super::Command;
use crate::{
    end::{Done, End, Exit},
    explained, numbers,
    words::Words,
};
use kwalgimo::Reason;
use std::io::{self, Write};

pub const COMMAND: Command = Command {
    name: "explain",
    usage: "[NUMBER]",
    summary: "tells what a refusal's number means; without one, the whole table",
    help: &["
NUMBER is 1 to 20. Of several reasons a call tells the one that comes first in its order, and each
is tried over all records before the next. A call on an image tries 1 to 13 first; then a sitting
14, 15, 16; a search within a radius 14, 16; an addition 17, 18, 19, 20, 16; filing 16. A start
tries 3, 4, 17, 18, 16.
"],
    switches: &[],
    options: &[],
    run,
};

fn run(command: &Command, words: &Words, out: &mut dyn Write) -> Done {
    match words.plain() {
        [] => Reason::ALL.into_iter().try_for_each(|reason| headline(reason, out))?,
        [number] => {
            let number = numbers::whole(number, "NUMBER", &format!("1 to {}", Reason::ALL.len()))?;
            let reason = u8::try_from(number).ok().and_then(Reason::numbered);
            entry(
                reason.ok_or_else(|| End::bad(format!("no refusal has the number {number}; they run from 1 to {}", Reason::ALL.len())))?,
                out,
            )?;
        }
        _ => return Err(command.misused("it takes one number")),
    }
    Ok(Exit::Done)
}

fn headline(reason: Reason, out: &mut dyn Write) -> io::Result<()> {
    writeln!(out, "{:>2} {}: {}", reason.number(), reason.name(), reason.sentence())
}

fn entry(reason: Reason, out: &mut dyn Write) -> io::Result<()> {
    writeln!(out, "{} {}", reason.number(), reason.name())?;
    part("refused when", reason.sentence(), out)?;
    part("place told", explained::place(reason), out)?;
    part("refused by", explained::commands(reason), out)?;
    part("the rule", explained::rule(reason), out)
}

/// How many letters of a text stand on one line.
const WIDTH: usize = 90;

fn part(heading: &str, text: &str, out: &mut dyn Write) -> io::Result<()> {
    let mut lines = vec![String::new()];
    for word in text.split(' ') {
        match lines.last_mut() {
            Some(line) if line.is_empty() => line.push_str(word),
            Some(line) if line.len() + word.len() < WIDTH => *line += &format!(" {word}"),
            _ => lines.push(word.into()),
        }
    }
    let headings = [heading].into_iter().chain(std::iter::repeat(""));
    headings.zip(lines).try_for_each(|(heading, line)| writeln!(out, "  {heading:<13} {line}"))
}
