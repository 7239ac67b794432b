//! What a command ends with when it does not end well.

use std::fmt;
use std::io::{self, Write};
use wivulameno::Refusal;

/// Why a command did not do its work.
#[derive(Clone, Debug)]
pub enum Failure {
    /// The library's refusal, and what it is about.
    Refused(Refusal, String),
    /// A refusal for which there is no number.
    Unwanted(String),
    /// The command line is wrong.
    Usage(String),
    /// A file cannot be read or written, or is not what it should be.
    File(String),
    /// Another process has the shelf open.
    Busy(String),
}

impl Failure {
    /// The exit status.
    pub fn status(&self) -> u8 {
        match self {
            Failure::Refused(..) | Failure::Unwanted(_) => 1,
            Failure::Usage(_) | Failure::File(_) => 2,
            Failure::Busy(_) => 3,
        }
    }

    /// The number of the refusal, if it has one.
    pub fn number(&self) -> Option<u32> {
        match self {
            Failure::Refused(refusal, _) => Some(refusal.number()),
            _ => None,
        }
    }
}

impl fmt::Display for Failure {
    fn fmt(&self, f: &mut fmt::Formatter) -> fmt::Result {
        match self {
            Failure::Refused(refusal, cause) if cause.is_empty() => refusal.fmt(f),
            // What to do comes first, and then what the number stands for.
            Failure::Refused(refusal, cause) => {
                let (number, sentence) = (refusal.number(), refusal.sentence());
                write!(f, "refused {number}: {cause} ({sentence})")
            }
            Failure::Unwanted(text) => write!(f, "refused: {text}"),
            Failure::Usage(text) | Failure::File(text) | Failure::Busy(text) => f.write_str(text),
        }
    }
}

/// For an error at a file.
pub fn at<'a>(name: &'a str) -> impl Fn(io::Error) -> Failure + 'a {
    move |error| Failure::File(format!("{name}: {error}"))
}

/// Writes to standard output.
pub fn print(text: &str) -> Result<(), Failure> {
    write_out(text.as_bytes())
}

/// Writes bytes to standard output.
pub fn write_out(bytes: &[u8]) -> Result<(), Failure> {
    let mut out = io::stdout().lock();
    let written = out.write_all(bytes).and_then(|()| out.flush());
    written.map_err(at("standard output"))
}

/// Tells something on standard error. If that cannot be written there is nobody
/// to tell.
pub fn tell(text: &str) {
    let _ = writeln!(io::stderr().lock(), "wv: {text}");
}
