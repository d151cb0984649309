//! A library's tree, as text or as a picture.
use super::{texts::NAMES, Command};
use crate::{
    end::{Done, Exit},
    image::{self, facts},
    names::Names,
    picture, read, store,
    tree::{Step, Tree},
    words::Words,
};
use kwalgimo::Library;
use std::{
    ffi::OsStr,
    io::{self, Write},
    path::Path,
};

pub const COMMAND: Command = Command {
    name: "show",
    usage: "IMAGE [--names FILE] [--svg FILE] [--replace]",
    summary: "shows a library's tree, as text or as a picture for print",
    help: &[
        "
The text is a line about the library, then a line for each strain: its code, its level, its
distance from its parent with the parent's code, and its name. A strain stands below its parent,
further in, and all below it come before its next sibling. Siblings are in the order of the file.
",
        NAMES,
        "
  --svg FILE     in place of the text, draws a picture and writes it to FILE, in the format SVG;
                 `-` is standard output. It has a row for each strain, in the order of the text,
                 and a column for each level that occurs, the root's at the left. The root's
                 circle is filled. Lines lead from a strain to its children, each with the
                 distance between the two. On an upright A4 page the letters have about 5 points
                 with 100 strains, if no name is very long; more strains want a larger sheet.
  --replace      the picture's FILE may be there already
",
    ],
    switches: &["--replace"],
    options: &["--names", "--svg"],
    run,
};

fn run(command: &Command, words: &Words, out: &mut dyn Write) -> Done {
    let [image] = command.exactly(words)?;
    let library = image::library(image)?;
    let names = Names::of(words.option("--names"), &library)?;
    let Some(file) = words.option("--svg") else {
        writeln!(out, "{}: {}", read::name(image), facts(&library))?;
        text(out, &Tree::of(&library), names.as_ref())?;
        return Ok(Exit::Done);
    };
    let drawn = drawn(image, &library, names.as_ref());
    if file == "-" {
        out.write_all(drawn.as_bytes())?;
        return Ok(Exit::Done);
    }
    let sources: Vec<_> = [image.as_os_str()].into_iter().chain(words.option("--names")).collect();
    store::write_new(Path::new(file), drawn.as_bytes(), words.has("--replace"), &sources)?;
    image::told(out, file, "drawn", &library)
}

/// A line for each strain. The names come last, since they may be long.
fn text(out: &mut dyn Write, tree: &Tree, names: Option<&Names>) -> io::Result<()> {
    let lines: Vec<_> = tree.steps().iter().map(|step| (code(tree, step), level_and_parent(tree, step.record), step.record)).collect();
    let codes = lines.iter().map(|(code, ..)| code.len()).max().unwrap_or(0);
    let parents = lines.iter().map(|(_, parent, _)| parent.len()).max().unwrap_or(0);
    for (code, parent, record) in lines {
        match names {
            Some(names) => writeln!(out, "{code:<codes$}  {parent:<parents$}  {}", names.shown(tree.records[record].code))?,
            None => writeln!(out, "{code:<codes$}  {parent}")?,
        }
    }
    Ok(())
}

/// As far in as the strain stands below the root.
fn code(tree: &Tree, step: &Step) -> String {
    format!("{}{}", "  ".repeat(step.below), tree.records[step.record].code)
}

/// The largest distance has seven digits.
fn level_and_parent(tree: &Tree, record: usize) -> String {
    let parent = match tree.distance(record) {
        Some(distance) => format!("{distance:>7} from {}", tree.parent(record).code),
        None => format!("{:>7}", "root"),
    };
    format!("level {:>2}  {parent}", tree.records[record].level())
}

/// The picture tells the file's own name, without the folders where it happened to lie.
fn drawn(image: &OsStr, library: &Library, names: Option<&Names>) -> String {
    let file = Path::new(image).file_name().unwrap_or(image);
    let tree = Tree::of(library);
    let codes = tree.records.iter().map(|record| record.code);
    let labels: Vec<_> = match names {
        Some(names) => codes.map(|code| format!("{code} {}", names.shown(code))).collect(),
        None => codes.map(|code| code.to_string()).collect(),
    };
    picture::svg(&format!("{}: {}", read::name(file), facts(library)), &tree, &labels)
}

#[cfg(test)]
mod tests {
    use super::*;
    use crate::tree::samples::{lone_root, strewn};
    use std::collections::BTreeSet;

    fn lines(library: &Library) -> Vec<String> {
        let mut out = Vec::new();
        text(&mut out, &Tree::of(library), None).unwrap();
        String::from_utf8(out).unwrap().lines().map(String::from).collect()
    }

    #[test]
    fn a_lone_root() {
        assert_eq!(lines(&lone_root()), ["5  level  0     root"]);
    }

    #[test]
    fn every_strain_has_one_line_and_the_columns_stand_straight() {
        let library = strewn();
        let lines = lines(&library);
        let shown: BTreeSet<u32> = lines.iter().map(|line| line.split_whitespace().next().unwrap().parse().unwrap()).collect();
        assert_eq!(lines.len(), library.len());
        assert_eq!(shown, library.records().map(|record| record.code).collect());
        let columns: BTreeSet<_> = lines.iter().map(|line| line.find("level")).collect();
        assert_eq!(columns.len(), 1);
    }
}
