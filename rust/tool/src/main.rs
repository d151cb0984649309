//! The tool on the desk: reads files, asks the proved library, explains what it answers, and writes files whole or not at all.
#![forbid(unsafe_code)]

mod commands;
mod csv;
mod end;
mod explained;
mod image;
mod lines;
mod measure;
mod names;
mod numbers;
mod picture;
mod plates;
mod progress;
mod read;
mod refused;
mod search;
mod selftest;
mod store;
mod strains;
mod table;
mod tree;
mod words;

use end::End;
use std::{
    env,
    io::{self, BufWriter, Write},
    process::ExitCode,
};

fn main() -> ExitCode {
    let mut out = BufWriter::new(io::stdout().lock());
    let done = commands::run(&env::args_os().skip(1).collect::<Vec<_>>(), &mut out);
    let exit = match done.and_then(|exit| end::told(out.flush(), exit)) {
        Ok(exit) => exit,
        Err(End { exit, why }) => {
            // what was found before comes first; if that cannot be written, the reason is still told
            _ = out.flush();
            if !why.is_empty() {
                _ = writeln!(io::stderr(), "kwalgimo: {why}");
            }
            exit
        }
    };
    ExitCode::from(exit as u8)
}
