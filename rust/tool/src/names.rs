//! The strains' names, which no image holds: lines of code and name.
use crate::{
    end::End,
    lines::{self, Line},
    numbers, read,
};
use kwalgimo::Library;
use std::{collections::HashMap, ffi::OsStr};

#[derive(Debug, Default)]
pub struct Names(HashMap<u32, String>);

impl Names {
    /// The names in a file, where one is given: at least one of the library's strains has its name there, or it is another library's.
    pub fn of(file: Option<&OsStr>, library: &Library) -> Result<Option<Self>, End> {
        let Some(file) = file else { return Ok(None) };
        let names = Self::read(file)?;
        match library.strains().any(|strain| names.name(strain.code).is_some()) {
            true => Ok(Some(names)),
            false => Err(End::bad(format!("{} names no strain of this library", read::name(file)))),
        }
    }

    fn read(file: &OsStr) -> Result<Self, End> {
        let mut names = HashMap::new();
        for line in lines::of(file, &["code", "strain"])?.lines {
            let (code, name) = named(&line).ok_or_else(|| {
                line.bad("a line is a code and a name, as `101,Ralstonia pickettii`; a name with a comma stands between quotation marks")
            })?;
            if let Some(first) = names.insert(code, name) {
                return Err(line.bad(format!("code {code} has a name already, {first}")));
            }
        }
        Ok(Names(names))
    }

    /// None where the file has no name for it.
    pub fn name(&self, code: u32) -> Option<&str> {
        self.0.get(&code).map(String::as_str)
    }

    /// The name, or words in its place.
    pub fn shown(&self, code: u32) -> &str {
        self.name(code).unwrap_or("(no name)")
    }
}

/// None of another kind of line, such as a strain's with its values.
fn named(line: &Line) -> Option<(u32, String)> {
    let (code, name) = match (line.is_row, line.fields.as_slice()) {
        (true, [code, name]) => (code, name.clone()),
        (false, [code, name @ ..]) => (code, name.join(" ")),
        _ => return None,
    };
    let is_name = name.contains(|letter: char| !letter.is_ascii_digit() && !"+-., ".contains(letter));
    is_name.then_some((numbers::parsed(code)?, name))
}
