//! How a run of the tool ends.
use std::io;

/// The exit status. Of several files the worst counts.
#[derive(Clone, Copy, Debug, PartialEq, Eq, PartialOrd, Ord)]
#[repr(u8)]
pub enum Exit {
    Done = 0,
    /// The library refused an image, a plate, a strain or a number, by the table of document 01; or a self-test did not hold.
    Refused = 1,
    /// The words or files given to the tool cannot be used, or a file cannot be read or written.
    Bad = 2,
}

/// An early end, with the sentence for standard error.
#[derive(Debug)]
pub struct End {
    pub exit: Exit,
    pub why: String,
}

/// What comes of a command: its exit status, or an early end.
pub type Done = Result<Exit, End>;

impl End {
    pub fn refused(why: impl Into<String>) -> Self {
        End { exit: Exit::Refused, why: why.into() }
    }

    pub fn bad(why: impl Into<String>) -> Self {
        End { exit: Exit::Bad, why: why.into() }
    }
}

/// What was found decides the exit status, also where nobody reads it to its end (`kwalgimo check .. | head`), which is no fault.
pub fn told(written: io::Result<()>, found: Exit) -> Done {
    match written {
        Err(error) if error.kind() != io::ErrorKind::BrokenPipe => Err(error.into()),
        _ => Ok(found),
    }
}

/// Standard output failed.
impl From<io::Error> for End {
    fn from(error: io::Error) -> Self {
        match error.kind() {
            io::ErrorKind::BrokenPipe => End { exit: Exit::Done, why: String::new() },
            _ => End::bad(format!("the answer cannot be written: {error}")),
        }
    }
}
