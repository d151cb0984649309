//! Found strains, as a table to read or as values between commas.
use crate::{csv, names::Names, plates::Plate};
use kwalgimo::Match;
use std::io::{self, Write};

/// How the answers are shown.
pub struct Table<'a> {
    pub names: Option<&'a Names>,
    pub csv: bool,
}

impl Table<'_> {
    /// What stands before all plates: of values between commas, the columns' names.
    pub fn begin(&self, out: &mut dyn Write) -> io::Result<()> {
        match self.csv {
            true => writeln!(out, "plate,label,rank,code,name,distance"),
            false => Ok(()),
        }
    }

    /// One plate's strains, the nearest first. Plates are counted from 1.
    pub fn plate(&self, out: &mut dyn Write, number: usize, plate: &Plate, told: &str, found: &[Match]) -> io::Result<()> {
        let label = plate.label.as_deref();
        if self.csv {
            return self.values(out, number, label.unwrap_or_default(), found);
        }
        let called = label.map_or_else(String::new, |label| format!(" ({label})"));
        let apart = if number == 1 { "" } else { "\n" };
        writeln!(out, "{apart}plate {number}{called}{told}")?;
        if found.is_empty() {
            return Ok(());
        }
        self.columns(out, found)
    }

    /// A plate without strains has a row too, so that it is not taken for one that was not asked about.
    fn values(&self, out: &mut dyn Write, number: usize, label: &str, found: &[Match]) -> io::Result<()> {
        if found.is_empty() {
            writeln!(out, "{number},{},,,,", csv::field(label))?;
        }
        for (rank, Match { code, distance }) in (1..).zip(found) {
            let name = self.names.and_then(|names| names.name(*code)).unwrap_or_default();
            writeln!(out, "{number},{},{rank},{code},{},{distance}", csv::field(label), csv::field(name))?;
        }
        Ok(())
    }

    fn columns(&self, out: &mut dyn Write, found: &[Match]) -> io::Result<()> {
        let rows = (1..).zip(found).map(|(rank, Match { code, distance })| {
            let name = self.names.map(|names| names.shown(*code).to_string());
            Row { rank: format!("{rank}"), name, code: code.to_string(), distance: distance.to_string() }
        });
        let headings =
            Row { rank: "rank".into(), name: self.names.map(|_| "name".into()), code: "code".into(), distance: "distance".into() };
        let rows: Vec<_> = [headings].into_iter().chain(rows).collect();
        let widest = |column: fn(&Row) -> &str| rows.iter().map(|row| column(row).chars().count()).max().unwrap_or(0);
        let (name, code) = (widest(|row| row.name.as_deref().unwrap_or_default()), widest(|row| &row.code));
        rows.iter().try_for_each(|row| writeln!(out, "{}", row.line(name, code)))
    }
}

/// What a line of the table holds.
struct Row {
    rank: String,
    name: Option<String>,
    code: String,
    distance: String,
}

impl Row {
    /// With so much room for names and codes. No distance is wider than its heading.
    fn line(&self, name_width: usize, code_width: usize) -> String {
        let Row { rank, name, code, distance } = self;
        let name = name.as_ref().map_or_else(String::new, |name| format!("{name:<name_width$}  "));
        format!("{rank:>6}  {name}{code:>code_width$}  {distance:>8}")
    }
}
