//! Strains added to a library.
use super::{
    texts::{LINES, VALUES},
    Command,
};
use crate::{
    end::{Done, End},
    image,
    progress::Progress,
    refused, store,
    strains::{self, NewStrain},
    words::Words,
};
use kwalgimo::Library;
use std::{io::Write, path::Path};

pub const COMMAND: Command = Command {
    name: "add",
    usage: "FILE CODE VALUES..\nFILE --from STRAINS",
    summary: "adds a strain to a library, or all strains of a file",
    help: &[
        VALUES,
        "
  --from STRAINS   a file of strains: a line for each, its code and its values. They are added in
                   the order of the file. If one is refused, none is added.

A refusal leaves FILE as it was.
",
        LINES,
    ],
    switches: &[],
    options: &["--from"],
    run,
};

fn run(command: &Command, words: &Words, out: &mut dyn Write) -> Done {
    let Some((file, given)) = words.plain().split_first() else { return Err(command.misused("it takes a file")) };
    let strains = strains::given(command, given, words.option("--from"))?;
    let held = store::hold(Path::new(file))?;
    let mut library = image::library(file)?;
    all(&mut library, &strains)?;
    store::write(&held, Path::new(file), library.bytes())?;
    image::told(out, file, "now", &library)
}

pub fn all(library: &mut Library, strains: &[NewStrain]) -> Result<(), End> {
    let mut progress = Progress::new("strains added");
    for (done, strain) in strains.iter().enumerate() {
        library.add(strain.code, &strain.profile).map_err(|refusal| refused::add(refusal, strain, library))?;
        progress.step(done + 1, strains.len());
    }
    Ok(())
}
