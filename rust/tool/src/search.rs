//! What both searches have in common: a library, the plates that are asked about, and how the answers are shown.
use crate::{
    end::{Done, End, Exit},
    image,
    names::Names,
    plates::{self, Plate},
    table::Table,
    words::Words,
};
use kwalgimo::{Library, Match};
use std::{ffi::OsStr, io::Write};

pub struct Search {
    pub library: Library,
    pub plates: Vec<Plate>,
    names: Option<Names>,
    csv: bool,
}

impl Search {
    /// With the options of both commands.
    pub fn of(image: &OsStr, plates: &OsStr, words: &Words) -> Result<Self, End> {
        let library = image::library(image)?;
        let names = Names::of(words.option("--names"), &library)?;
        let plates = plates::of(plates, &library)?;
        Ok(Search { library, plates, names, csv: words.has("--csv") })
    }

    /// Shows each plate's answer: what is told behind its number, and its strains.
    pub fn show<'a>(&self, answers: impl Iterator<Item = (String, &'a [Match])>, out: &mut dyn Write) -> Done {
        let table = Table { names: self.names.as_ref(), csv: self.csv };
        table.begin(out)?;
        for ((number, plate), (told, found)) in (1..).zip(&self.plates).zip(answers) {
            table.plate(out, number, plate, &told, found)?;
        }
        Ok(Exit::Done)
    }
}
