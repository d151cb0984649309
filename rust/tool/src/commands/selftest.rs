//! Whether a library finds every strain that it holds.
use super::Command;
use crate::{
    end::{self, Done, End, Exit},
    image,
    numbers::grouped,
    read,
    selftest::{rules, tried, Report},
    words::Words,
};
use kwalgimo::{MOST_DISTANCE, MOST_NEIGHBOURS};
use std::{
    ffi::OsStr,
    io::{self, Write},
};

pub const COMMAND: Command = Command {
    name: "selftest",
    usage: "IMAGE",
    summary: "tries whether every strain of a library is found, from every strain's own profile",
    help: &["
Each strain's own profile is taken as the plate. The library and its filing form are asked for
the nearest strains (32, or all where there are fewer), for all strains within 1,048,560, which
is the greatest distance, and for all within the distance of the last of the nearest. A line for
each rule tells from how many profiles it held.

The last line tells how many strains were found from every side: listed within the greatest
distance from every strain's profile, by the library and by its filing form. A rule that does
not hold is a bug of the library. Then the first findings are told and the exit status is 1.
"],
    switches: &[],
    options: &[],
    run,
};

fn run(command: &Command, words: &Words, out: &mut dyn Write) -> Done {
    let [file] = command.exactly(words)?;
    let library = image::library(file)?;
    // shown at once, since the rest may take seconds
    let begun = writeln!(out, "{}: {}", read::name(file), image::facts(&library)).and_then(|()| out.flush());
    let strains: Vec<_> = library.strains().collect();
    let report = tried(&library, &strains);
    ended(file, &report, begun.and_then(|()| told(&report, out)))
}

/// What was found decides the exit status, also where nobody reads it.
fn ended(file: &OsStr, report: &Report, written: io::Result<()>) -> Done {
    match report.broken() {
        0 => end::told(written, Exit::Done),
        broken => {
            let tries = report.tries();
            Err(End::refused(format!("{}: {broken} of {tries} tries did not hold: this is a bug of the library", read::name(file))))
        }
    }
}

fn told(report: &Report, out: &mut dyn Write) -> io::Result<()> {
    let strains = report.strains;
    writeln!(
        out,
        "the plates are the strains' own profiles; the nearest are at most {MOST_NEIGHBOURS}; the greatest distance that there can be is {}",
        grouped(MOST_DISTANCE as usize)
    )?;
    for (rule, held) in rules::ALL.iter().zip(report.held) {
        writeln!(out, "{}: {held} of {strains}", rule.says)?;
    }
    findings(report, out)?;
    writeln!(out, "every strain was found from every side: {} of {strains}", report.found())
}

fn findings(report: &Report, out: &mut dyn Write) -> io::Result<()> {
    for finding in &report.findings {
        writeln!(out, "{finding}")?;
    }
    match report.broken() - report.findings.len() {
        0 => Ok(()),
        more => writeln!(out, "and so on, {more} more"),
    }
}

#[cfg(test)]
mod tests {
    use super::*;
    use crate::{
        commands,
        selftest::fake::{Fake, Fault, NO_FAULT},
        tree::samples::example,
    };
    use kwalgimo::Match;

    const EXAMPLES: &str = concat!(env!("CARGO_MANIFEST_DIR"), "/../../examples/");

    fn selftest(file: &str) -> (Done, String) {
        let mut out = Vec::new();
        let done = commands::run(&["selftest".into(), file.into()], &mut out);
        (done, String::from_utf8(out).unwrap())
    }

    #[test]
    fn a_refused_image() {
        let (done, out) = selftest(&format!("{EXAMPLES}damaged.kwl"));
        let end = done.unwrap_err();
        assert_eq!((out.as_str(), end.exit), ("", Exit::Refused));
        assert!(end.why.contains("damaged.kwl: refused: 12 cover: "), "{}", end.why);
    }

    /// Of a library that hides a strain in every search within a radius.
    fn broken() -> Report {
        let within = |_: &[i16], _, mut found: Vec<Match>| {
            found.retain(|strain| strain.code != 103);
            Ok(found)
        };
        let library = example();
        let strains: Vec<_> = library.strains().collect();
        tried(&Fake { library, fault: Fault { within, ..NO_FAULT }, filed: NO_FAULT }, &strains)
    }

    #[test]
    fn what_does_not_hold_is_told() {
        let mut out = Vec::new();
        told(&broken(), &mut out).unwrap();
        let out = String::from_utf8(out).unwrap();
        let lines: Vec<_> = out.lines().collect();
        assert_eq!(lines.len(), 1 + 7 + 10 + 1 + 1);
        assert_eq!(lines[1], "within the greatest distance every strain is listed, each once: 0 of 4");
        assert!(lines[8].starts_with("from the profile of 101 it is not so that ") && lines[8].ends_with("missing 103"), "{}", lines[8]);
        assert_eq!(lines[18..], ["and so on, 6 more", "every strain was found from every side: 3 of 4"]);
    }

    #[test]
    fn what_does_not_hold_is_no_good_end_whether_it_is_read_or_not() {
        for written in [Ok(()), Err(io::ErrorKind::BrokenPipe.into())] {
            let end = ended(OsStr::new("hides.kwl"), &broken(), written).unwrap_err();
            assert_eq!(end.exit, Exit::Refused);
            assert_eq!(end.why, "hides.kwl: 16 of 28 tries did not hold: this is a bug of the library");
        }
    }
}
