//! The files of a shelf in the operating system's file system.

use super::{Files, Name, Trouble};
use std::ffi::OsString;
use std::fs::{self, File, OpenOptions, TryLockError};
use std::io::{self, Read, Seek, SeekFrom, Write};
use std::path::{absolute, Path, PathBuf};
use std::sync::atomic::{AtomicU32, Ordering};

/// The page and the log at two places. The next page lies beside the page, with
/// `.next` after its name. Where a place is a symbolic link, the file is the one
/// that the link leads to.
#[derive(Debug)]
pub struct Disk {
    page: Option<PathBuf>,
    log: PathBuf,
    lock: Option<File>,
}

impl Disk {
    /// Page and log at these places, which must be two.
    pub fn new(page: impl AsRef<Path>, log: impl AsRef<Path>) -> Result<Disk, Trouble> {
        let disk = Disk {
            page: Some(followed(page.as_ref())),
            ..Disk::of_log(log)
        };
        let pages = [Name::Page, Name::NextPage].map(|name| disk.path(name));
        for page in pages.into_iter().flatten() {
            if is_same(&page, &disk.log) {
                return Err(Trouble::SameFile);
            }
        }
        Ok(disk)
    }

    /// A log for a host that keeps the page elsewhere.
    pub fn of_log(log: impl AsRef<Path>) -> Disk {
        Disk {
            page: None,
            log: followed(log.as_ref()),
            lock: None,
        }
    }

    fn path(&self, name: Name) -> io::Result<PathBuf> {
        let page = || self.page.clone().ok_or(io::ErrorKind::Unsupported);
        match name {
            Name::Log => Ok(self.log.clone()),
            Name::Page => Ok(page()?),
            Name::NextPage => Ok(with_suffix(&page()?, ".next")),
        }
    }

    /// A file of its own beside `path`, whole and on disk, then given that name.
    /// The link is refused if the name is taken.
    fn link_new(&mut self, path: &Path, name: Name, bytes: &[u8]) -> io::Result<()> {
        static MADE: AtomicU32 = AtomicU32::new(0);
        let number = MADE.fetch_add(1, Ordering::Relaxed);
        let suffix = format!(".new-{}-{number}", std::process::id());
        let beside = with_suffix(path, &suffix);
        let file = private().create_new(true).open(&beside)?;
        let linked = self
            .fill_locked(file, name, bytes)
            .and_then(|()| fs::hard_link(&beside, path));
        fs::remove_file(&beside)?;
        linked
    }

    /// The same where the file system has no links: made in place, so that a cut
    /// can leave a part of it.
    fn make_new(&mut self, path: &Path, name: Name, bytes: &[u8]) -> io::Result<()> {
        let file = private().create_new(true).open(path)?;
        self.fill_locked(file, name, bytes)
    }

    fn fill_locked(&mut self, file: File, name: Name, bytes: &[u8]) -> io::Result<()> {
        let written = file.try_clone()?;
        if name == Name::Log {
            self.lock = Some(locked(file)?);
        }
        finish(written, bytes)
    }
}

impl Files for Disk {
    fn lock(&mut self) -> io::Result<()> {
        let file = locked(File::open(&self.log)?)?;
        match is_file_at(&file, &self.log)? {
            true => self.lock = Some(file),
            false => return Err(io::ErrorKind::WouldBlock.into()),
        }
        Ok(())
    }

    fn read(&mut self, name: Name) -> io::Result<Option<Vec<u8>>> {
        let mut bytes = Vec::new();
        match File::open(self.path(name)?) {
            Ok(mut file) => file.read_to_end(&mut bytes)?,
            Err(error) if error.kind() == io::ErrorKind::NotFound => return Ok(None),
            Err(error) => return Err(error),
        };
        Ok(Some(bytes))
    }

    fn create(&mut self, name: Name, bytes: &[u8]) -> io::Result<()> {
        let path = self.path(name)?;
        match self.link_new(&path, name, bytes) {
            Err(error) if has_no_links(&error) => self.make_new(&path, name, bytes)?,
            done => done?,
        }
        settle_folder_of(&path)
    }

    fn write(&mut self, name: Name, bytes: &[u8]) -> io::Result<()> {
        let path = self.path(name)?;
        let file = private().create(true).truncate(true).open(&path)?;
        finish(file, bytes)?;
        settle_folder_of(&path)
    }

    fn write_at(&mut self, name: Name, place: u64, bytes: &[u8]) -> io::Result<()> {
        let mut file = OpenOptions::new().write(true).open(self.path(name)?)?;
        if file.metadata()?.len() < place {
            let text = "it is shorter than it was";
            return Err(io::Error::new(io::ErrorKind::InvalidData, text));
        }
        file.seek(SeekFrom::Start(place))?;
        finish(file, bytes)
    }

    fn settle(&mut self, name: Name) -> io::Result<()> {
        let path = self.path(name)?;
        OpenOptions::new().write(true).open(&path)?.sync_all()?;
        settle_folder_of(&path)
    }

    fn rename(&mut self, from: Name, to: Name) -> io::Result<()> {
        let path = self.path(to)?;
        fs::rename(self.path(from)?, &path)?;
        settle_folder_of(&path)
    }

    fn remove(&mut self, name: Name) -> io::Result<()> {
        let path = self.path(name)?;
        fs::remove_file(&path)?;
        settle_folder_of(&path)
    }
}

fn locked(file: File) -> io::Result<File> {
    match file.try_lock() {
        Ok(()) => Ok(file),
        Err(TryLockError::WouldBlock) => Err(io::ErrorKind::WouldBlock.into()),
        Err(TryLockError::Error(error)) => Err(error),
    }
}

/// A link is not to be had on this file system.
fn has_no_links(error: &io::Error) -> bool {
    use io::ErrorKind::{PermissionDenied, Unsupported};
    matches!(error.kind(), PermissionDenied | Unsupported)
}

fn with_suffix(path: &Path, suffix: &str) -> PathBuf {
    let mut name = OsString::from(path);
    name.push(suffix);
    name.into()
}

/// The place that a symbolic link leads to, link by link; also one where there
/// is no file yet.
fn followed(path: &Path) -> PathBuf {
    let mut path = path.to_path_buf();
    for _ in 0..40 {
        let Ok(target) = fs::read_link(&path) else {
            break;
        };
        path = folder_of(&path).join(target);
    }
    path
}

/// Are the two places one file, or one name for a file to come?
fn is_same(a: &Path, b: &Path) -> bool {
    match (fs::metadata(a), fs::metadata(b)) {
        #[cfg(unix)]
        (Ok(a), Ok(b)) => {
            use std::os::unix::fs::MetadataExt;
            (a.dev(), a.ino()) == (b.dev(), b.ino())
        }
        #[cfg(not(unix))]
        (Ok(_), Ok(_)) => fs::canonicalize(a).ok() == fs::canonicalize(b).ok(),
        (Err(_), Err(_)) => absolute(a).ok() == absolute(b).ok(),
        _ => false,
    }
}

/// Is this open file still the one at that place?
fn is_file_at(file: &File, path: &Path) -> io::Result<bool> {
    #[cfg(unix)]
    {
        use std::os::unix::fs::MetadataExt;
        let (open, there) = (file.metadata()?, fs::metadata(path)?);
        Ok((open.dev(), open.ino()) == (there.dev(), there.ino()))
    }
    #[cfg(not(unix))]
    {
        let _ = (file, path);
        Ok(true)
    }
}

/// To write a file that nobody else may read: a page holds roots.
fn private() -> OpenOptions {
    let mut options = OpenOptions::new();
    options.write(true);
    #[cfg(unix)]
    std::os::unix::fs::OpenOptionsExt::mode(&mut options, 0o600);
    options
}

/// The same handle writes and waits, so that an error in between is told.
fn finish(mut file: File, bytes: &[u8]) -> io::Result<()> {
    file.write_all(bytes)?;
    file.sync_all()
}

fn folder_of(path: &Path) -> &Path {
    match path.parent() {
        Some(folder) if folder != Path::new("") => folder,
        _ => Path::new("."),
    }
}

/// Waits until the names in the folder are on disk, where a folder can be opened.
fn settle_folder_of(path: &Path) -> io::Result<()> {
    match cfg!(unix) {
        true => File::open(folder_of(path))?.sync_all(),
        false => Ok(()),
    }
}
