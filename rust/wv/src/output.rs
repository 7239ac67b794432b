//! Where a command writes its result.
//!
//! A file is written beside the one that it replaces, and renamed when it is
//! whole and on disk: whatever is cut off, there is the old file or the new one.

use crate::failure::{at, write_out, Failure};
use crate::kind::{is_log, is_page};
use crate::names::shown;
use crate::place::{descriptor, descriptor_named, end_of_links, folder_of, Place};
use std::ffi::OsStr;
use std::fs::{self, File, OpenOptions};
use std::io::{self, Read, Write};
use std::path::{Path, PathBuf};
use std::process;

/// The files of a command that its output must not replace, and what they are.
pub type Taken = Vec<(String, Place)>;

/// Where a result goes.
pub enum Target {
    /// Standard output.
    Standard,
    /// A device, a pipe or a descriptor, which is written to as it is.
    Direct(String, File),
    /// A file: its name as given, and where that leads.
    Beside(String, PathBuf),
}

impl Target {
    /// Finds out before the work whether this place can be written, and is none
    /// of the files that are taken, and no page and no log of any shelf. Nothing is
    /// changed.
    pub fn find(value: &OsStr, taken: &Taken) -> Result<Target, Failure> {
        let path = end_of_links(Path::new(value));
        let target = match (value == "-", descriptor_named(&path)) {
            (true, _) | (_, Some(1)) => Target::Standard,
            (_, Some(number)) => {
                let name = shown(value);
                let file = descriptor(number).map_err(at(&name))?;
                Target::Direct(name, file)
            }
            _ => Target::at_path(value, path)?,
        };
        target.is_free(taken)?;
        target.is_no_shelf()?;
        target.probe()?;
        Ok(target)
    }

    fn at_path(value: &OsStr, path: PathBuf) -> Result<Target, Failure> {
        let name = shown(value);
        let found = match fs::metadata(value) {
            Ok(found) if found.is_dir() => Err(io::ErrorKind::IsADirectory.into()),
            Err(error) if error.kind() == io::ErrorKind::NotFound => match names_a_file(&path) {
                true => Ok(None),
                false => Err(error),
            },
            found => found.map(Some),
        };
        match found.map_err(at(&name))? {
            Some(found) if !found.is_file() => {
                let file = OpenOptions::new().write(true).open(value);
                Ok(Target::Direct(name.clone(), file.map_err(at(&name))?))
            }
            _ => Ok(Target::Beside(name, path)),
        }
    }

    /// Is it none of the files that must stay?
    fn is_free(&self, taken: &Taken) -> Result<(), Failure> {
        let (name, place) = match self {
            Target::Standard => {
                let file = descriptor(1);
                let place = file.map_or(Place::Nothing, |file| Place::of_open(&file));
                ("standard output".to_string(), place)
            }
            Target::Direct(name, file) => (format!("--out {name}"), Place::of_open(file)),
            Target::Beside(name, path) => (format!("--out {name}"), Place::of(path)),
        };
        match taken.iter().find(|(_, other)| other.is(&place)) {
            None => Ok(()),
            Some((what, _)) => {
                let text = format!("{name} is {what}: the output needs a file of its own");
                Err(Failure::Usage(text))
            }
        }
    }

    /// Is it no page and no log, which hold roots and draws that are nowhere else?
    fn is_no_shelf(&self) -> Result<(), Failure> {
        let (name, found) = match self {
            Target::Standard => {
                let found = descriptor(1).ok().and_then(|file| read_again(&file));
                ("standard output".to_string(), found)
            }
            Target::Direct(name, file) => (format!("--out {name}"), read_again(file)),
            Target::Beside(name, path) => match File::open(path) {
                Err(error) if error.kind() == io::ErrorKind::NotFound => return Ok(()),
                opened => (format!("--out {name}"), Some(opened.map_err(at(name))?)),
            },
        };
        let what = found.map(|found| shelf_file(&found)).transpose();
        match what.map_err(at(&name))?.flatten() {
            None => Ok(()),
            Some(what) => {
                let text = format!(
                    "{name} is {what}, which no output replaces: give the output another name"
                );
                Err(Failure::Usage(text))
            }
        }
    }

    /// Can it be written? Writing no bytes finds out what a descriptor was opened
    /// for.
    fn probe(&self) -> Result<(), Failure> {
        match self {
            Target::Standard if cfg!(unix) => {
                let written = descriptor(1).and_then(|mut file| file.write(&[]));
                written.map(|_| ()).map_err(at("standard output"))
            }
            Target::Standard => Ok(()),
            Target::Direct(name, file) => {
                let written = (&*file).write(&[]);
                written.map(|_| ()).map_err(at(name))
            }
            Target::Beside(name, path) => Target::probe_beside(name, path),
        }
    }

    fn probe_beside(name: &str, path: &Path) -> Result<(), Failure> {
        let folder = folder_of(path);
        let what = format!("{name}: no file can be made in its folder");
        let beside = Beside::make(folder).map_err(at(&what))?;
        if path.exists() {
            let opened = OpenOptions::new().write(true).open(path);
            let old = opened.and_then(|old| beside.may_replace(&old, folder));
            old.map_err(at(name))?;
        }
        Ok(())
    }

    /// Does the result leave standard output to other words?
    pub fn leaves_standard_output(&self) -> bool {
        !matches!(self, Target::Standard)
    }

    /// Writes the whole result.
    pub fn write(self, bytes: &[u8]) -> Result<(), Failure> {
        match self {
            Target::Standard => write_out(bytes),
            Target::Direct(name, mut file) => file.write_all(bytes).map_err(at(&name)),
            Target::Beside(name, path) => replace(&path, bytes).map_err(at(&name)),
        }
    }
}

/// A handle for reading the file behind another handle, if it is one.
#[cfg(unix)]
fn read_again(file: &File) -> Option<File> {
    use std::os::fd::AsRawFd;
    let is_file = file.metadata().is_ok_and(|found| found.is_file());
    let opened = is_file.then(|| File::open(format!("/dev/fd/{}", file.as_raw_fd())));
    opened?.ok()
}

#[cfg(not(unix))]
fn read_again(_: &File) -> Option<File> {
    None
}

/// What file of a shelf this is, if it is one.
fn shelf_file(file: &File) -> io::Result<Option<&'static str>> {
    let len = file.metadata()?.len();
    let mut start = vec![];
    file.take(64).read_to_end(&mut start)?;
    Ok(match (is_page(&start, len), is_log(&start)) {
        (true, _) => Some("a shelf page"),
        (_, true) => Some("the log of a shelf"),
        _ => None,
    })
}

/// Is there a name at the end that a file can have?
fn names_a_file(path: &Path) -> bool {
    let text = path.as_os_str().as_encoded_bytes();
    path.file_name().is_some() && !text.ends_with(b"/")
}

/// Puts a file with these bytes in the place of what is there.
fn replace(path: &Path, bytes: &[u8]) -> io::Result<()> {
    let folder = folder_of(path);
    let mut beside = Beside::make(folder)?;
    if let Ok(old) = fs::metadata(path) {
        beside.keep_owner(&old);
        fs::set_permissions(&beside.path, old.permissions())?;
    }
    beside.file.write_all(bytes)?;
    beside.file.sync_all()?;
    fs::rename(&beside.path, path)?;
    beside.is_renamed = true;
    // The new file is whole. That its name lasts is more than was promised.
    if cfg!(unix) {
        let _ = File::open(folder).and_then(|folder| folder.sync_all());
    }
    Ok(())
}

/// A new file, which is removed again if it is not renamed.
struct Beside {
    path: PathBuf,
    file: File,
    is_renamed: bool,
}

impl Beside {
    fn make(folder: &Path) -> io::Result<Beside> {
        for attempt in 0..100 {
            let path = folder.join(format!(".wv-{}-{attempt}", process::id()));
            match OpenOptions::new().write(true).create_new(true).open(&path) {
                Err(error) if error.kind() == io::ErrorKind::AlreadyExists => {}
                made => {
                    return made.map(|file| Beside {
                        path,
                        file,
                        is_renamed: false,
                    })
                }
            }
        }
        Err(io::ErrorKind::AlreadyExists.into())
    }

    /// In a sticky folder, as `/tmp`, only its owner replaces a file, or that of
    /// the folder, or the superuser.
    #[cfg(unix)]
    fn may_replace(&self, old: &File, folder: &Path) -> io::Result<()> {
        use std::os::unix::fs::MetadataExt;
        let user = self.file.metadata()?.uid();
        let folder = fs::metadata(folder)?;
        let is_sticky = folder.mode() & 0o1000 != 0;
        match is_sticky && ![0, folder.uid(), old.metadata()?.uid()].contains(&user) {
            true => Err(io::ErrorKind::PermissionDenied.into()),
            false => Ok(()),
        }
    }

    #[cfg(not(unix))]
    fn may_replace(&self, _: &File, _: &Path) -> io::Result<()> {
        Ok(())
    }

    /// Gives it the owner and the group of the old file, as far as the system
    /// lets this user.
    #[cfg(unix)]
    fn keep_owner(&self, old: &fs::Metadata) {
        use std::os::unix::fs::{fchown, MetadataExt};
        let whole = fchown(&self.file, Some(old.uid()), Some(old.gid()));
        let _ = whole.or_else(|_| fchown(&self.file, None, Some(old.gid())));
    }

    #[cfg(not(unix))]
    fn keep_owner(&self, _: &fs::Metadata) {}
}

impl Drop for Beside {
    fn drop(&mut self) {
        if !self.is_renamed {
            let _ = fs::remove_file(&self.path);
        }
    }
}
