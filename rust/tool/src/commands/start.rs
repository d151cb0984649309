//! A new library.
use super::{
    add,
    texts::{LINES, VALUES},
    Command,
};
use crate::{
    end::{Done, End},
    image, numbers, refused, store,
    strains::{self, NewStrain},
    words::Words,
};
use kwalgimo::{Library, MOST_BYTES};
use std::{io::Write, path::Path};

pub const COMMAND: Command = Command {
    name: "start",
    usage: "FILE WELLS METRIC CODE VALUES.. [--replace]\nFILE WELLS METRIC --from STRAINS [--replace]",
    summary: "writes a new library with one strain, or with all strains of a file",
    help: &[
        "
WELLS is 1 to 16. METRIC is 1 (city block: the sum of the wells' differences) or 2 (the largest
of the wells' differences).
",
        VALUES,
        "
  --from STRAINS   a file of strains: a line for each, its code and its values. The library is
                   started with the first, and the others are added in the order of the file. If
                   one is refused, nothing is written.
  --replace        FILE may be there already
",
        LINES,
    ],
    switches: &["--replace"],
    options: &["--from"],
    run,
};

fn run(command: &Command, words: &Words, out: &mut dyn Write) -> Done {
    let [file, wells, metric, given @ ..] = words.plain() else {
        return Err(command.misused("it takes a file, the wells and the metric"));
    };
    let (wells, metric) = (numbers::whole(wells, "WELLS", "1 to 16")?, numbers::whole(metric, "METRIC", "1 or 2")?);
    let strains = strains::given(command, given, words.option("--from"))?;
    let mut library = started(wells, metric, &strains[0])?;
    add::all(&mut library, &strains[1..])?;
    let sources: Vec<_> = words.option("--from").into_iter().collect();
    store::write_new(Path::new(file), library.bytes(), words.has("--replace"), &sources)?;
    image::told(out, file, "started", &library)
}

fn started(wells: u32, metric: u32, strain: &NewStrain) -> Result<Library, End> {
    let mut image = vec![0; MOST_BYTES];
    let made = kwalgimo::start(wells, metric, strain.code, &strain.profile, &mut image).and_then(|length| {
        image.truncate(length);
        Library::from_bytes(image)
    });
    made.map_err(|refusal| refused::start(refusal, wells, metric, strain))
}
