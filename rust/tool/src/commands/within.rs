//! The strains within a radius of plates.
use super::{
    texts::{CSV, NAMES},
    Command,
};
use crate::{
    end::{Done, End},
    numbers::{self, counted},
    progress::Progress,
    refused,
    search::Search,
    words::Words,
};
use kwalgimo::Near;
use std::io::Write;

pub const COMMAND: Command = Command {
    name: "within",
    usage: "IMAGE PLATE RADIUS [--names FILE] [--csv]",
    summary: "lists all strains at most a radius away from a plate",
    help: &[
        "
The nearest comes first; of equally near ones, the one with the lowest code. Strains exactly at
the radius are listed.

PLATE is the values of the plate's wells, as 12,-7,30, or a file with one plate a line, as for
`kwalgimo match`. RADIUS is a whole number from 0 to 4,294,967,295; no two profiles lie further
apart than 1,048,560.
",
        NAMES,
        CSV,
    ],
    switches: &["--csv"],
    options: &["--names"],
    run,
};

fn run(command: &Command, words: &Words, out: &mut dyn Write) -> Done {
    let [image, plates, radius] = command.exactly(words)?;
    let radius = numbers::whole(radius, "RADIUS", "0 to 4,294,967,295")?;
    let search = Search::of(image, plates, words)?;
    let found = all(&search, radius)?;
    let of = counted(search.library.len(), "strain");
    let told = |near: &Near| format!(": {} of {of} within {radius}, known by measuring {}", near.strains.len(), near.measured);
    search.show(found.iter().map(|near| (told(near), near.strains.as_slice())), out)
}

fn all(Search { library, plates, .. }: &Search, radius: u32) -> Result<Vec<Near>, End> {
    let mut found = Vec::with_capacity(plates.len());
    let mut progress = Progress::new("plates");
    for plate in plates {
        found.push(library.within(&plate.values, radius).map_err(|refusal| refused::plate(refusal, plate, library))?);
        progress.step(found.len(), plates.len());
    }
    Ok(found)
}
