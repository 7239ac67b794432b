//! What a shelf asks of a file layer.

use std::fmt;
use std::io;

/// The files of one shelf.
#[derive(Clone, Copy, Debug, PartialEq, Eq, PartialOrd, Ord, Hash)]
pub enum Name {
    /// The shelf page.
    Page,
    /// Beside the page, to be put in its place.
    NextPage,
    /// The log.
    Log,
}

impl fmt::Display for Name {
    fn fmt(&self, f: &mut fmt::Formatter) -> fmt::Result {
        f.write_str(match self {
            Name::Page => "the shelf page",
            Name::NextPage => "the next shelf page",
            Name::Log => "the log",
        })
    }
}

/// A file layer. What a call has changed is on disk when it returns `Ok`: the
/// bytes, the length and the name. After an error, or when it is cut off, any
/// part of the change may be there, but for `create` and `rename`, which are
/// made whole or not at all.
pub trait Files {
    /// Keeps every other from the log as long as this value lives. Another one
    /// that has it is `WouldBlock`, no log is `NotFound`.
    fn lock(&mut self) -> io::Result<()>;

    /// The bytes of a file; `None` if there is no such file.
    fn read(&mut self, name: Name) -> io::Result<Option<Vec<u8>>>;

    /// Makes a file that is not there yet, never in the place of another; that
    /// is `AlreadyExists`. A new log is locked from the moment that it has its
    /// name.
    fn create(&mut self, name: Name, bytes: &[u8]) -> io::Result<()>;

    /// Makes a file, in the place of what has that name.
    fn write(&mut self, name: Name, bytes: &[u8]) -> io::Result<()>;

    /// Writes into a file from a place on, at most its end.
    fn write_at(&mut self, name: Name, place: u64, bytes: &[u8]) -> io::Result<()>;

    /// Waits until what can be read of a file is on disk.
    fn settle(&mut self, name: Name) -> io::Result<()>;

    /// Gives a file another name, in one step, in the place of what has it.
    fn rename(&mut self, from: Name, to: Name) -> io::Result<()>;

    /// Takes a file away.
    fn remove(&mut self, name: Name) -> io::Result<()>;
}
