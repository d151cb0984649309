//! Values between commas, semicolons or tabs, as programs for tables write them. A field that holds such a mark or a quotation mark
//! stands between quotation marks, which are doubled inside.

/// What stands between the fields of a line: the first such mark that is not quoted. None where it is spaces.
pub fn mark(line: &str) -> Option<char> {
    let unquoted = line.split('"').step_by(2);
    unquoted.flat_map(str::chars).find(|letter| [',', ';', '\t'].contains(letter))
}

/// The fields of a line, without the spaces around them.
pub fn fields(line: &str, mark: char) -> Result<Vec<String>, &'static str> {
    let mut fields = Vec::new();
    let mut rest = Some(line);
    while let Some(left) = rest {
        let (field, behind) = match left.trim_start_matches(' ').strip_prefix('"') {
            Some(quoted) => unquoted(quoted, mark)?,
            None => bare(left, mark),
        };
        fields.push(field);
        rest = behind;
    }
    Ok(fields)
}

/// A field without quotation marks, and what stands behind its mark.
fn bare(line: &str, mark: char) -> (String, Option<&str>) {
    let (field, behind) = line.split_once(mark).map_or((line, None), |(field, behind)| (field, Some(behind)));
    (field.trim().to_string(), behind)
}

/// The same of a field whose first quotation mark was taken.
fn unquoted(line: &str, mark: char) -> Result<(String, Option<&str>), &'static str> {
    let mut field = String::new();
    let mut rest = line;
    loop {
        let (part, behind) = rest.split_once('"').ok_or("a quotation mark has no second one")?;
        field.push_str(part);
        match behind.strip_prefix('"') {
            Some(doubled) => rest = doubled,
            None => return Ok((field, behind_mark(behind.trim_start_matches(' '), mark)?)),
        }
        field.push('"');
    }
}

fn behind_mark(rest: &str, mark: char) -> Result<Option<&str>, &'static str> {
    match rest.strip_prefix(mark) {
        None if !rest.is_empty() => Err("something stands between a quotation mark and the end of its field"),
        next => Ok(next),
    }
}

/// A field as it is written.
pub fn field(text: &str) -> String {
    match text.contains([',', '"']) || text.trim() != text {
        true => format!("\"{}\"", text.replace('"', "\"\"")),
        false => text.to_string(),
    }
}

#[cfg(test)]
mod tests {
    use super::*;

    #[test]
    fn fields_are_taken_apart() {
        assert_eq!(fields("1, -2 ,3", ',').unwrap(), ["1", "-2", "3"]);
        assert_eq!(fields("1; -2,5 ;3", ';').unwrap(), ["1", "-2,5", "3"]);
        assert_eq!(fields(r#"7,"loop 4, bench ""B""" , 9"#, ',').unwrap(), ["7", r#"loop 4, bench "B""#, "9"]);
        assert_eq!(fields(",", ',').unwrap(), ["", ""]);
        assert_eq!(fields("", ',').unwrap(), [""]);
        assert_eq!(fields("1\t\t\"a\tb\"\t", '\t').unwrap(), ["1", "", "a\tb", ""]);
    }

    #[test]
    fn the_mark_of_a_line() {
        for (line, found) in [
            ("1 2", None),
            ("1,2;3", Some(',')),
            ("\"loop 4, bench\";7", Some(';')),
            ("\"a;b\"", None),
            ("1;2,5", Some(';')),
            ("1\t2", Some('\t')),
        ] {
            assert_eq!(mark(line), found, "{line}");
        }
    }

    #[test]
    fn a_quotation_mark_out_of_place() {
        assert_eq!(fields("\"open, 1", ','), Err("a quotation mark has no second one"));
        assert_eq!(fields("\"shut\" late, 1", ','), Err("something stands between a quotation mark and the end of its field"));
    }

    #[test]
    fn what_is_written_is_read_back() {
        for text in ["", "plain", "a, b", "\"", " edge ", "say \"so\", then"] {
            assert_eq!(fields(&format!("{},{}", field(text), field(text)), ',').unwrap(), [text, text]);
        }
    }
}
