//! The log: a line for each stocking and each draw, on disk before its page is.

use super::identity::Identity;
use super::page::{digest, new_page, sound};
use super::record::{header, Kind, Line, Record, LINE, TEXT};
use super::{Disk, Files, Name, Standing, Trouble};
use crate::{shelf, Refusal};
use std::fmt;
use std::path::Path;

/// The log of one shelf, kept in a file: it counts the accepted draws and knows
/// the pages that it has seen.
///
/// A host whose page lives in its own cache uses this alone. Each call works on
/// the page in memory and has its line on disk when it returns. Then the host
/// writes the page, and says [`Log::close`] when the page is in place on disk.
///
/// ```
/// use wivulameno::Log;
///
/// # let folder = std::env::temp_dir().join(format!("wivulameno-log-{}", std::process::id()));
/// # std::fs::create_dir_all(&folder)?;
/// # let path = folder.join("shelf.log");
/// # let write = |page: &[u8]| {};
/// let mut log = Log::create(&path)?;
/// let mut page = log.begin(255)?; // a page without roots
/// write(&page);
/// log.close()?;
///
/// log.stock(&mut page, &[7; 16])?;
/// write(&page);
/// log.close()?;
///
/// let root = log.draw(&mut page)?; // it is counted by now, on disk
/// write(&page);
/// log.close()?;
/// # assert_eq!((root, log.count()), ([7; 16], 1));
/// # std::fs::remove_dir_all(&folder)?;
/// # Ok::<(), Box<dyn std::error::Error>>(())
/// ```
pub struct Log<F: Files = Disk> {
    files: F,
    identity: Identity,
    count: u64,
    /// The last line, and whether it has no end yet.
    last: Option<Line>,
    is_due: bool,
    /// Where the next line starts.
    end: u64,
    stopped: bool,
}

impl<F: Files> fmt::Debug for Log<F> {
    fn fmt(&self, f: &mut fmt::Formatter) -> fmt::Result {
        f.debug_struct("Log")
            .field("identity", &self.identity)
            .field("count", &self.count)
            .field("is_due", &self.is_due)
            .field("stopped", &self.stopped)
            .finish_non_exhaustive()
    }
}

impl Log {
    /// A new log with the count 0, at a place where there is no file.
    pub fn create(log: impl AsRef<Path>) -> Result<Log, Trouble> {
        Log::create_in(Disk::of_log(log))
    }

    /// The log at a place. Nobody else can open it as long as this value lives.
    pub fn open(log: impl AsRef<Path>) -> Result<Log, Trouble> {
        Log::open_in(Disk::of_log(log))
    }
}

impl<F: Files> Log<F> {
    /// [`Log::create`] over another file layer.
    pub fn create_in(mut files: F) -> Result<Log<F>, Trouble> {
        let identity = Identity::new();
        let made = files.create(Name::Log, &header(identity));
        made.map_err(Trouble::at(Name::Log))?;
        Log::read(files)
    }

    /// [`Log::open`] over another file layer.
    pub fn open_in(mut files: F) -> Result<Log<F>, Trouble> {
        files.lock().map_err(Trouble::at(Name::Log))?;
        Log::read(files)
    }

    /// Reads the log, and waits until what was read is on disk. The next line is
    /// written in the place of one without its full stop.
    fn read(mut files: F) -> Result<Log<F>, Trouble> {
        let record = record_of(&mut files)?;
        let mut log = Log {
            files,
            identity: record.identity,
            count: record.count(),
            last: record.lines.last().copied(),
            is_due: record.is_due,
            end: record.len(),
            stopped: false,
        };
        if record.is_torn {
            let marks = if record.is_due { "." } else { ".\n" };
            log.write(log.end - 2, marks.as_bytes())?;
        }
        let settled = log.files.settle(Name::Log);
        settled.map_err(Trouble::at(Name::Log))?;
        Ok(log)
    }

    /// The accepted draws so far.
    pub fn count(&self) -> u64 {
        self.count
    }

    /// The identity of the shelf.
    pub fn identity(&self) -> Identity {
        self.identity
    }

    /// Is there a line whose page may not be in place?
    pub fn is_due(&self) -> bool {
        self.is_due
    }

    /// Was a page in place under this log?
    pub(super) fn had_page(&mut self) -> Result<bool, Trouble> {
        Ok(record_of(&mut self.files)?.had_page())
    }

    /// How a page stands to this log. A page that is not sound is refused.
    pub fn standing(&mut self, page: &[u8]) -> Result<Standing, Trouble> {
        sound(page)?;
        match self.last {
            Some(line) if self.is_present(line, page) => Ok(Standing::Present),
            _ => Ok(record_of(&mut self.files)?.standing(page)),
        }
    }

    fn is_present(&self, last: Line, page: &[u8]) -> bool {
        last.kind != Kind::Ahead && last.digest == digest(page)
    }

    /// A new page without roots, 1 to 255 slots, with its line. From now on
    /// every page from before it is refused.
    pub fn begin(&mut self, slots: u16) -> Result<Vec<u8>, Trouble> {
        if self.last.is_some_and(|line| line.kind == Kind::Ahead) {
            return Err(Trouble::Page(Standing::SetBack));
        }
        let draws = u32::try_from(self.count).map_err(|_| Refusal::Spent)?;
        let page = new_page(&self.identity.order(slots), draws);
        sound(&page)?;
        let line = self.line(Kind::Page, self.count, &page);
        if self.last != Some(line) || !self.is_due {
            self.append(line)?;
        }
        Ok(page)
    }

    /// Puts a root on the page, with its line. The root is to be stocked once,
    /// here, and not again after an error.
    pub fn stock(&mut self, page: &mut [u8], root: &[u8]) -> Result<(), Trouble> {
        self.usable(page)?;
        let mut after = page.to_vec();
        shelf::stock(&mut after, root)?;
        self.append(self.line(Kind::Stock, self.count, &after))?;
        page.copy_from_slice(&after);
        Ok(())
    }

    /// Takes a root off the page, with its line. It is counted when this
    /// returns, and after an error no root was given out.
    pub fn draw(&mut self, page: &mut [u8]) -> Result<[u8; 16], Trouble> {
        self.usable(page)?;
        let mut after = page.to_vec();
        let root = shelf::draw(&mut after, self.count)?;
        self.append(self.line(Kind::Draw, self.count + 1, &after))?;
        page.copy_from_slice(&after);
        Ok(root)
    }

    /// Notes that the page of the last line is in place, on disk.
    pub fn close(&mut self) -> Result<(), Trouble> {
        if self.is_due {
            self.write(self.end - 1, b"\n")?;
            self.is_due = false;
        }
        Ok(())
    }

    /// After a cut: the page that is due, if it can be had from the page in
    /// place or from the one beside it. Then it is to be put in place, and
    /// `close` is due.
    ///
    /// A draw is made again from the page before it, and its root is dropped.
    pub fn redo(&self, page: &[u8], beside: Option<&[u8]>) -> Option<Vec<u8>> {
        let due = self.last.filter(|_| self.is_due)?;
        redo(due, page, beside)
    }

    /// A page that is drawn from and stocked on. One that is ahead is written
    /// into the log, for good.
    fn usable(&mut self, page: &[u8]) -> Result<(), Trouble> {
        if self.stopped {
            return Err(Trouble::Stopped);
        }
        let standing = self.standing(page)?;
        if let Standing::Ahead { draws } = standing {
            self.append(self.line(Kind::Ahead, self.count + draws, page))?;
            self.close()?;
        }
        match standing.is_usable() {
            true => Ok(()),
            false => Err(Trouble::Page(standing)),
        }
    }

    fn line(&self, kind: Kind, draws: u64, page: &[u8]) -> Line {
        Line {
            kind,
            draws,
            digest: digest(page),
        }
    }

    /// Writes a line that counts when this returns, on disk.
    fn append(&mut self, line: Line) -> Result<(), Trouble> {
        self.close()?;
        self.write(self.end, &line.text())?;
        self.write(self.end + TEXT as u64, b".")?;
        self.end += LINE as u64;
        if line.kind == Kind::Draw {
            self.count = line.draws;
        }
        self.last = Some(line);
        self.is_due = true;
        Ok(())
    }

    fn write(&mut self, place: u64, bytes: &[u8]) -> Result<(), Trouble> {
        if self.stopped {
            return Err(Trouble::Stopped);
        }
        let written = self.files.write_at(Name::Log, place, bytes);
        self.stopped = written.is_err();
        written.map_err(Trouble::at(Name::Log))
    }

    pub(super) fn files(&mut self) -> &mut F {
        &mut self.files
    }
}

pub(super) fn record_of<F: Files>(files: &mut F) -> Result<Record, Trouble> {
    let bytes = files.read(Name::Log).map_err(Trouble::at(Name::Log))?;
    Record::read(&bytes.ok_or(Trouble::Missing(Name::Log))?)
}

/// The page of a line that has no end: the page in place, the one beside it, or
/// that of a draw from the page in place.
pub(super) fn redo(due: Line, page: &[u8], beside: Option<&[u8]>) -> Option<Vec<u8>> {
    let mut drawn = page.to_vec();
    if due.kind == Kind::Draw {
        let _ = shelf::draw(&mut drawn, due.draws - 1);
    }
    let mut pages = [Some(drawn.as_slice()), beside].into_iter().flatten();
    let is_due = |page: &&[u8]| digest(page) == due.digest;
    pages.find(is_due).map(<[u8]>::to_vec)
}
