//! Files of lines: plates, strains and names. Empty lines and remarks, which begin with `# `, are passed over, and so is a first line that
//! names the columns. Nothing else is: a line that cannot be used is told.
use crate::{
    csv,
    end::End,
    numbers::{self, counted},
    read,
};
use std::ffi::OsStr;

/// The lines of a file.
#[derive(Debug)]
pub struct Lines {
    /// What the first column is called, where a line names the columns.
    pub first_column: Option<String>,
    pub lines: Vec<Line>,
}

/// One line of a file, with what is needed to speak of it.
#[derive(Clone, Debug, PartialEq, Eq)]
pub struct Line {
    /// The file and the line's number, counted from 1.
    pub place: String,
    pub fields: Vec<String>,
    /// Whether commas, semicolons or tabs stood between its fields; else spaces.
    pub is_row: bool,
}

impl Line {
    pub fn bad(&self, why: impl AsRef<str>) -> End {
        End::bad(format!("{}: {}", self.place, why.as_ref()))
    }

    pub fn wells(&self, fields: &[String]) -> Result<Vec<i16>, End> {
        fields.iter().map(|field| numbers::well(field)).collect::<Result<_, _>>().map_err(|why| self.bad(why))
    }
}

/// The lines of a file. A first line names the columns if it begins with one of these: with any first line that has no numbers, a plate
/// whose wells all failed would be passed over.
pub fn of(file: &OsStr, first_columns: &[&str]) -> Result<Lines, End> {
    below_columns(split(&read::name(file), &read::text(file)?)?, first_columns)
}

/// Where a line names the columns, every other one has as many fields.
fn below_columns(mut lines: Vec<Line>, first_columns: &[&str]) -> Result<Lines, End> {
    let first = lines.first().and_then(|line| line.fields.first()).map(|field| field.to_lowercase());
    let Some(first) = first.filter(|first| first_columns.contains(&first.as_str())) else { return Ok(Lines { first_column: None, lines }) };
    if lines[0].fields.iter().any(|field| numbers::begins(field)) {
        return Err(lines[0].bad(format!("a line that begins with `{first}` names the columns, and this one has numbers")));
    }
    if !lines[0].fields[1..].iter().all(|field| is_column(field)) {
        return Ok(Lines { first_column: None, lines });
    }
    let columns = lines.remove(0);
    match lines.iter().find(|line| columns.is_row && line.fields.len() != columns.fields.len()) {
        None => Ok(Lines { first_column: Some(first), lines }),
        Some(line) => {
            let (own, all) = (counted(line.fields.len(), "field"), counted(columns.fields.len(), "column"));
            Err(line.bad(format!("{own}, and {} names {all}", columns.place)))
        }
    }
}

/// `well 2`, `A1`, `name`; but not `OVER`.
fn is_column(field: &str) -> bool {
    let has_digit = field.contains(|letter: char| letter.is_ascii_digit());
    field.starts_with(char::is_alphabetic) && (has_digit || ["name", "well", "value"].contains(&field.to_lowercase().as_str()))
}

fn split(file: &str, text: &str) -> Result<Vec<Line>, End> {
    // programs for tables put a mark before the first line
    let text = text.strip_prefix(BYTE_ORDER_MARK).unwrap_or(text);
    let mut lines = Vec::new();
    for (line, number) in text.lines().map(|line| line.trim_matches(' ')).zip(1..) {
        let place = format!("{file}, line {number}");
        // in a remark too: another program may see the end of a line there
        if line.contains(is_no_text) {
            return Err(End::bad(format!("{place}: a control character stands in it, so this is no text")));
        }
        if !line.trim().is_empty() && line != "#" && !line.starts_with("# ") {
            lines.push(parted(place, line)?);
        }
    }
    Ok(lines)
}

const BYTE_ORDER_MARK: char = '\u{feff}';

fn is_no_text(letter: char) -> bool {
    letter.is_control() && letter != '\t' || ['\u{2028}', '\u{2029}', BYTE_ORDER_MARK].contains(&letter)
}

fn parted(place: String, line: &str) -> Result<Line, End> {
    let mark = csv::mark(line);
    let fields = match mark {
        Some(mark) => csv::fields(line, mark).map_err(|why| End::bad(format!("{place}: {why}")))?,
        None => line.split_whitespace().map(String::from).collect(),
    };
    Ok(Line { place, fields, is_row: mark.is_some() })
}

#[cfg(test)]
mod tests {
    use super::*;

    fn fields(text: &str) -> Vec<Vec<String>> {
        split("f", text).unwrap().into_iter().map(|line| line.fields).collect()
    }

    #[test]
    fn commas_or_spaces() {
        assert_eq!(fields("1,-2, 3\n4  5 6\r\n7;8;9"), [["1", "-2", "3"], ["4", "5", "6"], ["7", "8", "9"]]);
        assert_eq!(fields("1\t\t3\n"), [["1", "", "3"]]);
        assert_eq!(fields("\u{feff}1,2"), [["1", "2"]]);
    }

    #[test]
    fn what_is_passed_over_still_counts_as_a_line() {
        let lines = split("f", "# a remark\n\n  \n#\n7\n").unwrap();
        assert_eq!(lines.len(), 1);
        assert_eq!(lines[0].place, "f, line 5");
    }

    #[test]
    fn bytes_of_another_kind_of_file() {
        for line in ["3,\u{1b}[31m4", "# a remark\r7,8", "\u{feff}5,6", "# a\u{2028}7"] {
            let end = split("f", &format!("1,2\n{line}\n")).unwrap_err();
            assert_eq!(end.why, "f, line 2: a control character stands in it, so this is no text", "{line:?}");
        }
    }

    fn below(text: &str) -> Result<usize, String> {
        let first_columns = ["plate", "label", "sample", "code"];
        below_columns(split("f", text).unwrap(), &first_columns).map(|below| below.lines.len()).map_err(|end| end.why)
    }

    #[test]
    fn a_line_that_names_the_columns() {
        assert_eq!(below("Plate,well 1,well 2\nloop 4,1,2\n"), Ok(1));
        assert_eq!(below("code name\n101 Ralstonia pickettii\n"), Ok(1));
        assert_eq!(
            below("plate,1,2\nloop 4,1,2\n"),
            Err("f, line 1: a line that begins with `plate` names the columns, and this one has numbers".into())
        );
        assert_eq!(below("label,A1,A2\n12\n"), Err("f, line 2: 1 field, and f, line 1 names 3 columns".into()));
        assert_eq!(below("label,w1,w2\nloop 4,1,2\n12,983\n"), Err("f, line 3: 2 fields, and f, line 1 names 3 columns".into()));
    }

    #[test]
    fn a_plate_is_no_line_of_columns() {
        for first in ["loop 1,OVER,OVER", "loop 1,,", "#1,5,6", "plate 7,5,6", "1,2,3", "sample,OVER,OVER", "plate,,"] {
            assert_eq!(below(&format!("{first}\nloop 2,3,4\n")), Ok(2), "{first}");
        }
    }
}
