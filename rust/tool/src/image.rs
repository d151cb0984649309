//! Images in files.
use crate::{
    end::{self, Done, End, Exit},
    numbers::counted,
    read, refused,
    tree::Tree,
};
use kwalgimo::{Library, Metric, Refusal, EDITIONS, MOST_BYTES};
use std::{ffi::OsStr, io::Write};

/// The bytes of a file, and what the check says of them.
pub struct Checked {
    pub bytes: Vec<u8>,
    pub library: Result<Library, Refusal>,
}

pub fn checked(file: &OsStr) -> Result<Checked, End> {
    let bytes = read::bytes(file, MOST_BYTES)?;
    Ok(Checked { library: Library::from_bytes(bytes.clone()), bytes })
}

/// The library in a file, or the refusal with its figures.
pub fn library(file: &OsStr) -> Result<Library, End> {
    let Checked { bytes, library } = checked(file)?;
    library.map_err(|refusal| End::refused(format!("{}: {}", read::name(file), refused::image(&bytes, refusal))))
}

/// Says what stands in a file that was written.
pub fn told(out: &mut dyn Write, file: &OsStr, how: &str, library: &Library) -> Done {
    let name = read::name(file);
    let written = writeln!(out, "{name}: {how}: {}", facts(library)).and_then(|()| out.flush());
    end::told(written, Exit::Done).map_err(|End { why, .. }| End::bad(format!("{name} is written, but {why}")))
}

/// The editions that the library takes.
pub fn editions() -> String {
    EDITIONS.map(|edition| edition.to_string()).join(", ")
}

/// What a library is, in one line.
pub fn facts(library: &Library) -> String {
    let tree = Tree::of(library);
    let (wells, strains) = (counted(library.wells(), "well"), counted(library.len(), "strain"));
    let (metric, root, depth) = (metric(library.metric()), tree.records[tree.root].code, tree.depth());
    format!("{wells}, {metric}, {strains}, root {root}, depth {depth}")
}

fn metric(metric: Metric) -> String {
    format!("metric {} ({})", metric as u8, metric.name())
}
