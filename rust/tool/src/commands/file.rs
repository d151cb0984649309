//! A library's filing form.
use super::Command;
use crate::{
    end::{Done, End},
    image, store,
    words::Words,
};
use kwalgimo::Library;
use std::{ffi::OsStr, io::Write, path::Path};

pub const COMMAND: Command = Command {
    name: "file",
    usage: "IMAGE [OUT] [--replace]",
    summary: "writes a library's filing form, in its own place or to another file",
    help: &["
Libraries with the same wells, metric and strains have the same filing form, byte for byte,
whoever built them. It is the library started with the lowest code, the others added in
ascending order of code, and it gives every plate the same strains and distances.

  --replace   OUT may be there already
"],
    switches: &["--replace"],
    options: &[],
    run,
};

fn run(command: &Command, words: &Words, out: &mut dyn Write) -> Done {
    let (image, to) = match words.plain() {
        [image] => (image, None),
        [image, to] => (image, Some(to)),
        _ => return Err(command.misused("it takes an image, and may take a file to write to")),
    };
    let form = match to {
        None => in_place(image)?,
        Some(to) => {
            let form = image::library(image)?.filing_form();
            store::write_new(Path::new(to), form.bytes(), words.has("--replace"), &[image])?;
            form
        }
    };
    image::told(out, to.unwrap_or(image), "filed", &form)
}

fn in_place(image: &OsStr) -> Result<Library, End> {
    let held = store::hold(Path::new(image))?;
    let form = image::library(image)?.filing_form();
    store::write(&held, Path::new(image), form.bytes())?;
    Ok(form)
}
