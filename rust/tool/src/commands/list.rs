//! A library as text.
use super::Command;
use crate::{
    end::{Done, Exit},
    image,
    words::Words,
};
use std::io::Write;

pub const COMMAND: Command = Command {
    name: "list",
    usage: "FILE",
    summary: "prints a library's listing: a line for each record, in the order of the file",
    help: &["
The first line tells the wells, the metric, how many strains there are, and the root's code. A
record's line holds its code, its parent's code, its level, and the values of its wells.
"],
    switches: &[],
    options: &[],
    run,
};

fn run(command: &Command, words: &Words, out: &mut dyn Write) -> Done {
    let [file] = command.exactly(words)?;
    out.write_all(image::library(file)?.listing().as_bytes())?;
    Ok(Exit::Done)
}
