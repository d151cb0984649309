//! Files as they are read. `-` is standard input. What is far too long is not read to its end.
use crate::end::End;
use std::{
    ffi::OsStr,
    fs::File,
    io::{self, Read},
};

/// How a file is called in sentences.
pub fn name(file: &OsStr) -> String {
    match file.to_str() {
        Some("-") => "standard input".into(),
        Some("") => "a file without a name".into(),
        // a name with a line feed could pass for a line of the answer
        _ => file.to_string_lossy().replace(char::is_control, "\u{fffd}"),
    }
}

/// All bytes of a file, or the first `most` and one more.
pub fn bytes(file: &OsStr, most: usize) -> Result<Vec<u8>, End> {
    let limit = most as u64 + 1;
    let mut read = Vec::new();
    let done = match file.to_str() {
        Some("-") => io::stdin().lock().take(limit).read_to_end(&mut read),
        _ => File::open(file).and_then(|opened| opened.take(limit).read_to_end(&mut read)),
    };
    done.map_err(|error| End::bad(format!("{} cannot be read: {error}", name(file))))?;
    Ok(read)
}

/// Far more than the plates of a year.
const MOST_TEXT: usize = 64 << 20;

/// A file of text.
pub fn text(file: &OsStr) -> Result<String, End> {
    let read = bytes(file, MOST_TEXT)?;
    if read.len() > MOST_TEXT {
        return Err(End::bad(format!("{} is longer than 64 MiB", name(file))));
    }
    String::from_utf8(read).map_err(|error| {
        let line = 1 + error.as_bytes()[..error.utf8_error().valid_up_to()].iter().filter(|byte| **byte == b'\n').count();
        End::bad(format!("{}, line {line}: this is not text in UTF-8", name(file)))
    })
}
