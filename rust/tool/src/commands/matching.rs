//! The nearest strains of plates.
use super::{
    texts::{CSV, LINES, NAMES},
    Command,
};
use crate::{
    end::{Done, End},
    numbers,
    progress::Progress,
    refused,
    search::Search,
    words::Words,
};
use kwalgimo::{Match, MOST_PLATES};
use std::io::Write;

pub const COMMAND: Command = Command {
    name: "match",
    usage: "IMAGE PLATES [-k N] [--names FILE] [--csv]",
    summary: "names the strains nearest to each plate",
    help: &[
        "
Every strain of the library is weighed for every plate. The nearest comes first; of equally near
ones, the one with the lowest code.

PLATES is a file with one plate a line: the values of its wells, with commas, semicolons, tabs or
spaces between, whole numbers from -32,768 to 32,767. Where these are not spaces, the first field
may be the plate's label; it is no number, unless the columns are named and the first of them is
plate, label or sample. Or PLATES is one plate itself, as 12,-7,30; a file whose name is a number
is named as ./12.
",
        LINES,
        "
  -k N           how many strains for each plate, 1 to 32; 5 where nothing is said",
        NAMES,
        CSV,
    ],
    switches: &["--csv"],
    options: &["-k", "--names"],
    run,
};

/// How many strains of each plate are shown where nothing is said.
const NEIGHBOURS: u32 = 5;

fn run(command: &Command, words: &Words, out: &mut dyn Write) -> Done {
    let [image, plates] = command.exactly(words)?;
    let k = words.option("-k").map_or(Ok(NEIGHBOURS), |word| numbers::whole(word, "-k", "1 to 32"))?;
    let search = Search::of(image, plates, words)?;
    let found = all(&search, k)?;
    search.show(found.iter().map(|found| (String::new(), found.as_slice())), out)
}

/// The nearest strains of all plates, by as many sittings as it takes.
fn all(Search { library, plates, .. }: &Search, k: u32) -> Result<Vec<Vec<Match>>, End> {
    let mut found = Vec::with_capacity(plates.len());
    let mut progress = Progress::new("plates");
    for sitting in plates.chunks(MOST_PLATES) {
        let values: Vec<_> = sitting.iter().flat_map(|plate| &plate.values).copied().collect();
        let matched = library.nearest(&values, k as usize).map_err(|refusal| refused::neighbours(refusal, k))?;
        found.extend(matched.plates().map(<[Match]>::to_vec));
        progress.step(found.len(), plates.len());
    }
    Ok(found)
}
