//! What can go wrong with a shelf in files.

use super::{Name, Standing};
use crate::Refusal;
use std::error::Error;
use std::fmt;
use std::io;

/// What can go wrong with a shelf in files.
#[derive(Debug)]
#[non_exhaustive]
pub enum Trouble {
    /// The library's refusal. Nothing has changed.
    Refused(Refusal),
    /// The page stands so that it is neither drawn from nor stocked on.
    Page(Standing),
    /// A file that is not there.
    Missing(Name),
    /// A file that is there already.
    Exists(Name),
    /// Two of the shelf's files are one.
    SameFile,
    /// Another process has the shelf open.
    Busy,
    /// The file is no log of this version.
    NotALog,
    /// A line of the log is not what was written there.
    Damaged {
        /// Its number; the first line of the file is 1.
        line: u64,
    },
    /// The file layer failed at this file.
    File(Name, io::Error),
    /// An earlier call failed at a write. Open the shelf again.
    Stopped,
}

impl Trouble {
    pub(super) fn at(name: Name) -> impl Fn(io::Error) -> Trouble {
        move |error| match error.kind() {
            io::ErrorKind::NotFound => Trouble::Missing(name),
            io::ErrorKind::AlreadyExists => Trouble::Exists(name),
            io::ErrorKind::WouldBlock => Trouble::Busy,
            _ => Trouble::File(name, error),
        }
    }

    /// The refusal, if it has a number: the library's, or 15 for a page that is
    /// behind or ahead of the log.
    pub fn refusal(&self) -> Option<Refusal> {
        match self {
            Trouble::Refused(refusal) => Some(*refusal),
            Trouble::Page(Standing::Behind { .. } | Standing::Ahead { .. } | Standing::SetBack) => {
                Some(Refusal::AnotherCount)
            }
            _ => None,
        }
    }
}

impl From<Refusal> for Trouble {
    fn from(refusal: Refusal) -> Trouble {
        Trouble::Refused(refusal)
    }
}

impl fmt::Display for Trouble {
    fn fmt(&self, f: &mut fmt::Formatter) -> fmt::Result {
        match self {
            Trouble::Refused(refusal) => refusal.fmt(f),
            Trouble::Page(standing) => match self.refusal() {
                Some(refusal) => write!(f, "refused {}: {standing}", refusal.number()),
                None => write!(f, "refused: {standing}"),
            },
            Trouble::Missing(name) => write!(f, "{name} is not there"),
            Trouble::Exists(name) => write!(f, "{name} is there already"),
            Trouble::SameFile => write!(f, "the shelf page and the log must be two files"),
            Trouble::Busy => write!(f, "another process has the shelf open"),
            Trouble::NotALog => write!(f, "the log is no log: it does not begin as one"),
            Trouble::Damaged { line } => write!(f, "line {line} of the log is damaged"),
            Trouble::File(name, error) => write!(f, "{name}: {error}"),
            Trouble::Stopped => write!(f, "an earlier write failed: open the shelf again"),
        }
    }
}

impl Error for Trouble {
    fn source(&self) -> Option<&(dyn Error + 'static)> {
        match self {
            Trouble::Refused(refusal) => Some(refusal),
            Trouble::File(_, error) => Some(error),
            _ => None,
        }
    }
}
