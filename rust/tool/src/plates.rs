//! The plates that the searches are asked about.
use crate::{
    end::End,
    lines::{self, Line, Lines},
    numbers, read, refused,
};
use kwalgimo::Library;
use std::{ffi::OsStr, path::Path};

#[derive(Clone, Debug, PartialEq, Eq)]
pub struct Plate {
    /// Where it was read.
    pub place: String,
    /// What the file calls it.
    pub label: Option<String>,
    pub values: Vec<i16>,
}

/// The plates that a word names, each of the library's wells.
pub fn of(word: &OsStr, library: &Library) -> Result<Vec<Plate>, End> {
    let plates = named(word)?;
    if plates.is_empty() {
        return Err(End::bad(format!("{} holds no plate", read::name(word))));
    }
    // one by one: a line with the values of two plates is no plate, and two short lines make none
    for plate in plates.iter().filter(|plate| plate.values.len() != library.wells()) {
        library.within(&plate.values, 0).map_err(|refusal| refused::plate(refusal, plate, library))?;
    }
    Ok(plates)
}

/// The one plate whose values the word holds, or the plates of a file, one a line.
fn named(word: &OsStr) -> Result<Vec<Plate>, End> {
    let shown = word.to_string_lossy();
    match numbers::wells([word]) {
        Ok(values) if !values.is_empty() => Ok(vec![Plate { place: format!("plate {shown}"), label: None, values }]),
        // such as 12,,13 or 40000, unless a file is called so
        Err(why) if numbers::begins(&shown) && !Path::new(word).exists() => {
            Err(End::bad(format!("{} is no file, and no plate: {why}", numbers::shown(&shown))))
        }
        _ => in_file(word),
    }
}

/// The first columns of a file of plates: labels, or the first well.
const LABELS: [&str; 3] = ["plate", "label", "sample"];
const WELLS: [&str; 3] = ["well", "well 1", "w1"];

fn in_file(file: &OsStr) -> Result<Vec<Plate>, End> {
    let Lines { first_column, lines } = lines::of(file, &[LABELS, WELLS].concat())?;
    let labelled = first_column.map(|first| LABELS.contains(&first.as_str()));
    lines.iter().map(|line| plate(line, labelled.unwrap_or_else(|| begins_with_label(line)))).collect()
}

/// Where no column is named: of a row, a first field that is no number of any kind.
fn begins_with_label(line: &Line) -> bool {
    line.is_row && line.fields.first().is_some_and(|first| !first.is_empty() && numbers::parsed::<f64>(first).is_none())
}

fn plate(line: &Line, labelled: bool) -> Result<Plate, End> {
    let (label, fields) = line.fields.split_at(labelled.into());
    Ok(Plate { place: line.place.clone(), label: label.first().cloned(), values: line.wells(fields)? })
}
