//! Which file a name leads to.

use crate::names::shown;
use std::fs::{self, File, Metadata};
use std::io;
use std::path::{Path, PathBuf};

/// A file as the system knows it, whatever it is called.
#[derive(Clone, Debug)]
pub enum Place {
    /// A file that is there.
    File(Identity),
    /// A name for which there is no file yet: its folder, and the name in small
    /// letters, as some file systems take them for the same.
    New(Identity, String),
    /// A terminal, a pipe, a device, or nothing: it has no bytes to lose.
    Nothing,
}

/// The device, and the file's number on it.
#[cfg(unix)]
type Identity = (u64, u64);

/// The path without links.
#[cfg(not(unix))]
type Identity = PathBuf;

impl Place {
    /// What a path leads to, through symbolic links.
    pub fn of(path: &Path) -> Place {
        match fs::metadata(path) {
            Ok(found) if found.is_file() => {
                identity(path, &found).map_or(Place::Nothing, Place::File)
            }
            Ok(_) => Place::Nothing,
            Err(_) => Place::of_new(&end_of_links(path)),
        }
    }

    fn of_new(path: &Path) -> Place {
        let folder = folder_of(path);
        let found = fs::metadata(folder).and_then(|found| identity(folder, &found));
        match (found, path.file_name()) {
            (Ok(folder), Some(name)) => Place::New(folder, shown(name).to_lowercase()),
            _ => Place::Nothing,
        }
    }

    /// What is behind an open file.
    pub fn of_open(file: &File) -> Place {
        match file.metadata() {
            Ok(found) if found.is_file() => {
                open_identity(&found).map_or(Place::Nothing, Place::File)
            }
            _ => Place::Nothing,
        }
    }

    /// Are both the same file?
    pub fn is(&self, other: &Place) -> bool {
        match (self, other) {
            (Place::File(one), Place::File(other)) => one == other,
            (Place::New(one, name), Place::New(other, other_name)) => {
                one == other && name == other_name
            }
            _ => false,
        }
    }
}

#[cfg(unix)]
fn identity(_: &Path, found: &Metadata) -> io::Result<Identity> {
    use std::os::unix::fs::MetadataExt;
    Ok((found.dev(), found.ino()))
}

#[cfg(not(unix))]
fn identity(path: &Path, _: &Metadata) -> io::Result<Identity> {
    fs::canonicalize(path)
}

#[cfg(unix)]
fn open_identity(found: &Metadata) -> io::Result<Identity> {
    identity(Path::new(""), found)
}

#[cfg(not(unix))]
fn open_identity(_: &Metadata) -> io::Result<Identity> {
    Err(io::ErrorKind::Unsupported.into())
}

/// The folder that a path's last name is in.
pub fn folder_of(path: &Path) -> &Path {
    match path.parent() {
        Some(folder) if folder != Path::new("") => folder,
        _ => Path::new("."),
    }
}

/// Links are followed this many times, as the system does.
const LINKS: usize = 40;

/// The path behind symbolic links, also if there is no file yet. The name of a
/// descriptor stays as it is.
pub fn end_of_links(path: &Path) -> PathBuf {
    let mut end = path.to_path_buf();
    for _ in 0..LINKS {
        if descriptor_named(&end).is_some() {
            break;
        }
        let Ok(next) = fs::read_link(&end) else {
            break;
        };
        end = folder_of(&end).join(next);
    }
    end
}

/// The number of the descriptor that a path names, as `/dev/fd/3` does.
pub fn descriptor_named(path: &Path) -> Option<u32> {
    let number = path.file_name()?.to_str()?.parse().ok()?;
    let folder = fs::canonicalize(folder_of(path)).ok()?;
    let own = fs::canonicalize("/dev/fd").ok()?;
    (folder == own).then_some(number)
}

/// Another handle for what a process was started with.
#[cfg(unix)]
pub fn descriptor(number: u32) -> io::Result<File> {
    use std::os::fd::BorrowedFd;
    let number = i32::try_from(number).map_err(|_| io::ErrorKind::InvalidInput)?;
    // SAFETY: it is copied and not kept, and one that is not open is an error.
    let lent = unsafe { BorrowedFd::borrow_raw(number) };
    Ok(lent.try_clone_to_owned()?.into())
}

/// Another handle for what a process was started with.
#[cfg(not(unix))]
pub fn descriptor(_: u32) -> io::Result<File> {
    Err(io::ErrorKind::Unsupported.into())
}
