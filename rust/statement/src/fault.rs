//! What is wrong with a text, and where.

use std::error::Error;
use std::fmt;

/// A place in a text. Lines and columns count from 1, columns in characters.
#[derive(Clone, Copy, Debug, PartialEq, Eq)]
pub struct Place {
    pub line: usize,
    pub column: usize,
}

/// What is wrong at a place, in a sentence without its full stop.
#[derive(Clone, Debug, PartialEq, Eq)]
pub struct Fault {
    pub place: Place,
    pub text: String,
}

impl Place {
    /// The first character of a text.
    pub(crate) const START: Place = Place { line: 1, column: 1 };

    /// What is wrong here.
    pub(crate) fn fault(self, text: impl Into<String>) -> Fault {
        Fault {
            place: self,
            text: text.into(),
        }
    }
}

impl fmt::Display for Fault {
    fn fmt(&self, f: &mut fmt::Formatter) -> fmt::Result {
        let Place { line, column } = self.place;
        write!(f, "line {line}, column {column}: {}", self.text)
    }
}

impl Error for Fault {}
