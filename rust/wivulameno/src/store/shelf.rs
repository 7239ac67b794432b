//! The shelf: its page in a file, with its log.

use super::log::{record_of, redo};
use super::page::{sound, Page};
use super::record::Record;
use super::{Disk, Files, Log, Name, Standing, Trouble};
use crate::Refusal;
use std::fmt;
use std::path::Path;

/// So often the log is read while another process writes it.
const LOOKS: usize = 1000;

/// A shelf whose page and log are files.
pub struct Shelf<F: Files = Disk> {
    log: Log<F>,
    stopped: bool,
}

impl<F: Files> fmt::Debug for Shelf<F> {
    fn fmt(&self, f: &mut fmt::Formatter) -> fmt::Result {
        f.debug_struct("Shelf")
            .field("log", &self.log)
            .field("stopped", &self.stopped)
            .finish()
    }
}

/// What is on the shelf.
#[derive(Clone, Copy, Debug, PartialEq, Eq)]
pub struct Status {
    /// The slots of the page.
    pub slots: usize,
    /// The slots that hold a root.
    pub ready: usize,
    /// The draws that the page has seen.
    pub draws: u32,
    /// The draws that the log counts.
    pub count: u64,
    /// How the page stands to the log.
    pub standing: Standing,
    /// The log's last line has no end: a call is at work, or was cut off. The
    /// next opening finishes it.
    pub unfinished: bool,
}

impl Status {
    /// What a draw would end with; `None` if it would give a root.
    pub fn trouble(&self) -> Option<Trouble> {
        match self.standing.is_usable() {
            false => Some(Trouble::Page(self.standing)),
            true if self.ready == 0 => Some(Refusal::Empty.into()),
            true if self.draws == u32::MAX => Some(Refusal::Spent.into()),
            true => None,
        }
    }

    fn of(page: &[u8], count: u64, standing: Standing) -> Status {
        let Page {
            ready,
            spare,
            draws,
        } = Page::of(page);
        Status {
            slots: ready.len() + spare.len(),
            ready: ready.len(),
            draws,
            count,
            standing,
            unfinished: false,
        }
    }
}

impl Shelf {
    /// A new page without roots, and its new log, at places where there is no
    /// file. A log that never had a page in place, left by a cut, is gone on
    /// with.
    pub fn create(
        page: impl AsRef<Path>,
        log: impl AsRef<Path>,
        slots: u16,
    ) -> Result<Shelf, Trouble> {
        Shelf::create_in(Disk::new(page, log)?, slots)
    }

    /// For a page that is lost: a new page without roots under the log that is
    /// there. From then on every page from before is refused.
    pub fn renew(
        page: impl AsRef<Path>,
        log: impl AsRef<Path>,
        slots: u16,
    ) -> Result<Shelf, Trouble> {
        Shelf::renew_in(Disk::new(page, log)?, slots)
    }

    /// The shelf at two places. Nobody else can open it as long as this value
    /// lives. Finishes what a cut left.
    pub fn open(page: impl AsRef<Path>, log: impl AsRef<Path>) -> Result<Shelf, Trouble> {
        Shelf::open_in(Disk::new(page, log)?)
    }

    /// Reads page and log and nothing more: takes no lock, writes nothing, and
    /// can be used beside a process that has the shelf open.
    pub fn look(page: impl AsRef<Path>, log: impl AsRef<Path>) -> Result<Status, Trouble> {
        Shelf::look_in(Disk::new(page, log)?)
    }
}

impl<F: Files> Shelf<F> {
    /// [`Shelf::create`] over another file layer.
    pub fn create_in(mut files: F, slots: u16) -> Result<Shelf<F>, Trouble> {
        good_size(slots)?;
        refuse_a_page(&mut files)?;
        let found = files.read(Name::Log).map_err(Trouble::at(Name::Log))?;
        let mut log = match found {
            Some(_) => Log::open_in(files)?,
            None => Log::create_in(files)?,
        };
        match log.had_page()? {
            true => Err(Trouble::Exists(Name::Log)),
            false => Shelf::begin(log, slots),
        }
    }

    /// [`Shelf::renew`] over another file layer.
    pub fn renew_in(files: F, slots: u16) -> Result<Shelf<F>, Trouble> {
        good_size(slots)?;
        Shelf::begin(Log::open_in(files)?, slots)
    }

    /// Begins a page under a log that nobody else has.
    fn begin(mut log: Log<F>, slots: u16) -> Result<Shelf<F>, Trouble> {
        refuse_a_page(log.files())?;
        let page = log.begin(slots)?;
        let mut shelf = Shelf {
            log,
            stopped: false,
        };
        let made = shelf.log.files().create(Name::Page, &page);
        shelf.stop_at(made.map_err(Trouble::at(Name::Page)))?;
        shelf.close_line()?;
        Ok(shelf)
    }

    /// [`Shelf::open`] over another file layer.
    pub fn open_in(files: F) -> Result<Shelf<F>, Trouble> {
        let log = Log::open_in(files)?;
        let mut shelf = Shelf {
            log,
            stopped: false,
        };
        shelf.finish_cut()?;
        Ok(shelf)
    }

    /// Puts the page in place that is due after a cut, if it can be had. Then
    /// the log's last line gets its end. A page that the log has never seen is
    /// left alone, and what lies beside it too.
    fn finish_cut(&mut self) -> Result<(), Trouble> {
        let page = self.page()?;
        if sound(&page).is_err() || !self.log.standing(&page)?.is_seen() {
            return Ok(());
        }
        let beside = self.read(Name::NextPage)?;
        let redone = self.log.redo(&page, beside.as_deref());
        match &redone {
            Some(due) if *due != page => self.replace(due)?,
            _ if beside.is_some() => self.remove_beside()?,
            _ => {}
        }
        let now = redone.unwrap_or(page);
        match self.log.standing(&now)?.is_usable() {
            true => self.close_line(),
            false => Ok(()),
        }
    }

    /// [`Shelf::look`] over another file layer.
    pub fn look_in(mut files: F) -> Result<Status, Trouble> {
        let mut before = record_of(&mut files)?;
        for _ in 0..LOOKS {
            let pages = [Name::Page, Name::NextPage].map(|name| read(&mut files, name));
            let record = record_of(&mut files)?;
            if (record.len(), record.is_due) == (before.len(), before.is_due) {
                let [page, beside] = pages;
                return seen(&record, page?, beside?);
            }
            before = record;
        }
        Err(Trouble::Busy)
    }

    /// Puts a root on the shelf. The root is to be stocked once, here, and not
    /// again after an error.
    pub fn stock(&mut self, root: &[u8]) -> Result<(), Trouble> {
        let mut page = self.page()?;
        let stocked = self.log.stock(&mut page, root);
        self.stop_unless_refused(stocked)?;
        self.replace(&page)?;
        self.close_line()
    }

    /// Takes a root off the shelf. It is counted when this returns, and after an
    /// error no root was given out.
    pub fn draw(&mut self) -> Result<[u8; 16], Trouble> {
        let mut page = self.page()?;
        let drawn = self.log.draw(&mut page);
        let root = self.stop_unless_refused(drawn)?;
        self.replace(&page)?;
        self.close_line()?;
        Ok(root)
    }

    /// What is on the shelf.
    pub fn status(&mut self) -> Result<Status, Trouble> {
        let page = self.page()?;
        let standing = self.log.standing(&page)?;
        Ok(Status {
            unfinished: self.log.is_due(),
            ..Status::of(&page, self.log.count(), standing)
        })
    }

    fn page(&mut self) -> Result<Vec<u8>, Trouble> {
        if self.stopped {
            return Err(Trouble::Stopped);
        }
        self.read(Name::Page)?.ok_or(Trouble::Missing(Name::Page))
    }

    fn read(&mut self, name: Name) -> Result<Option<Vec<u8>>, Trouble> {
        read(self.log.files(), name)
    }

    /// Writes the page beside, and puts it in place when it is on disk.
    fn replace(&mut self, page: &[u8]) -> Result<(), Trouble> {
        let files = self.log.files();
        let written = files.write(Name::NextPage, page);
        let replaced = written.and_then(|()| files.rename(Name::NextPage, Name::Page));
        self.stop_at(replaced.map_err(Trouble::at(Name::Page)))
    }

    fn close_line(&mut self) -> Result<(), Trouble> {
        let closed = self.log.close();
        self.stop_at(closed)
    }

    fn remove_beside(&mut self) -> Result<(), Trouble> {
        let removed = self.log.files().remove(Name::NextPage);
        self.stop_at(removed.map_err(Trouble::at(Name::NextPage)))
    }

    fn stop_at<T>(&mut self, done: Result<T, Trouble>) -> Result<T, Trouble> {
        self.stopped |= done.is_err();
        done
    }

    /// A refusal has changed nothing, so the shelf goes on.
    fn stop_unless_refused<T>(&mut self, done: Result<T, Trouble>) -> Result<T, Trouble> {
        match done {
            Err(Trouble::Refused(_) | Trouble::Page(_)) => done,
            _ => self.stop_at(done),
        }
    }
}

/// What opening would find: the page that is due, if it can be had, else the one
/// in place.
fn seen(
    record: &Record,
    page: Option<Vec<u8>>,
    beside: Option<Vec<u8>>,
) -> Result<Status, Trouble> {
    let page = page.ok_or(Trouble::Missing(Name::Page))?;
    sound(&page)?;
    let due = record.lines.last().filter(|_| record.is_due);
    let due = due.filter(|_| record.standing(&page).is_seen());
    let redone = due.and_then(|due| redo(*due, &page, beside.as_deref()));
    let page = redone.unwrap_or(page);
    Ok(Status {
        unfinished: record.is_due,
        ..Status::of(&page, record.count(), record.standing(&page))
    })
}

fn read<F: Files>(files: &mut F, name: Name) -> Result<Option<Vec<u8>>, Trouble> {
    files.read(name).map_err(Trouble::at(name))
}

fn refuse_a_page<F: Files>(files: &mut F) -> Result<(), Trouble> {
    match read(files, Name::Page)? {
        Some(_) => Err(Trouble::Exists(Name::Page)),
        None => Ok(()),
    }
}

/// No page of another size is sound.
fn good_size(slots: u16) -> Result<(), Refusal> {
    match slots {
        1..=255 => Ok(()),
        _ => Err(Refusal::Unsound),
    }
}
