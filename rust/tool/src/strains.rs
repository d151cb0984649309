//! New strains, from the command line or a file.
use crate::{commands::Command, end::End, lines, numbers, read};
use std::ffi::{OsStr, OsString};

#[derive(Clone, Debug, PartialEq, Eq)]
pub struct NewStrain {
    /// Where it was read.
    pub place: String,
    pub code: u32,
    pub profile: Vec<i16>,
}

/// One strain of a code and values, or those of a file, at least one: either the words or the file is given.
pub fn given(command: &Command, words: &[OsString], file: Option<&OsStr>) -> Result<Vec<NewStrain>, End> {
    match (words, file) {
        ([code, values @ ..], None) => Ok(vec![one(code, values)?]),
        ([], Some(file)) => in_file(file),
        _ => Err(command.misused("it takes a code and values, or --from and a file")),
    }
}

fn in_file(file: &OsStr) -> Result<Vec<NewStrain>, End> {
    match lines::of(file, &["code", "strain"])?.lines {
        lines if lines.is_empty() => Err(End::bad(format!("{} holds no strain", read::name(file)))),
        lines => lines.iter().map(strain).collect(),
    }
}

fn one(code: &OsStr, values: &[OsString]) -> Result<NewStrain, End> {
    let code = numbers::whole(code, "CODE", "1 to 4,294,967,295")?;
    let profile = numbers::wells(values.iter().map(OsString::as_os_str)).map_err(End::bad)?;
    Ok(NewStrain { place: format!("strain {code}"), code, profile })
}

/// A line is a code and the values of its wells.
fn strain(line: &lines::Line) -> Result<NewStrain, End> {
    let (code, profile) = line.fields.split_first().ok_or_else(|| line.bad("it holds no strain"))?;
    let code =
        numbers::parsed(code).ok_or_else(|| line.bad(format!("`{code}` is no code, which is a whole number from 1 to 4,294,967,295")))?;
    Ok(NewStrain { place: format!("{}, strain {code}", line.place), code, profile: line.wells(profile)? })
}
