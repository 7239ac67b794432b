//! The files of a shelf: how they are opened, and what is wrong with them.

use crate::args::{path, Args};
use crate::failure::{tell, Failure};
use crate::input::LIMIT;
use crate::kind::Kind;
use crate::names::{as_word, counted, shown};
use crate::output::Taken;
use crate::place::{end_of_links, Place};
use crate::progress::Progress;
use std::ffi::OsStr;
use std::fs::File;
use std::io::Read;
use std::path::{Path, PathBuf};
use std::thread;
use std::time::{Duration, Instant};
use wivulameno::store::{Name, Standing, Status, Trouble};
use wivulameno::{Refusal, Shelf};

/// How often a shelf that another process has open is tried again.
const PAUSE: Duration = Duration::from_millis(20);

/// What to do when no page can be trusted.
const BEGIN_AGAIN: &str = "no page of this shelf can be trusted: delete all its pages, and make a \
                           new shelf with a new log and new roots";

fn kind_of(path: &Path) -> Option<Kind> {
    let mut bytes = vec![];
    let file = File::open(path).ok()?;
    file.take(LIMIT).read_to_end(&mut bytes).ok()?;
    Some(Kind::of(&bytes))
}

/// What a file is that should be one of a shelf, if that can be told.
fn other_file(path: &Path, wanted: Kind) -> Option<String> {
    let kind = kind_of(path)?;
    let told = kind
        .told()
        .filter(|_| ![wanted, Kind::Empty].contains(&kind))?;
    Some(format!("it is {told}"))
}

/// The page and the log, and how long to wait for them.
pub struct ShelfFiles {
    page: PathBuf,
    log: PathBuf,
    wait: Duration,
}

impl ShelfFiles {
    /// The page at `page`, with what `--log` and `--wait` say.
    pub fn of(args: &Args, page: &OsStr) -> Result<ShelfFiles, Failure> {
        let files = ShelfFiles {
            page: path(page)?,
            log: path(args.needed("log")?)?,
            wait: args.seconds("wait")?,
        };
        let log = Place::of(&files.log);
        match files.pages().into_iter().find(|(_, page)| page.is(&log)) {
            None => Ok(files),
            Some((what, _)) => {
                let name = shown(&files.log);
                let text = format!("--log {name} is {what}: page and log must be two files");
                Err(Failure::Usage(text))
            }
        }
    }

    /// The page, and where the next one is written: beside it, also if its name
    /// is a link.
    fn pages(&self) -> Taken {
        let beside = |page: &Path| {
            let mut next = page.as_os_str().to_os_string();
            next.push(".next");
            let what = format!("{}, where the shelf's next page is written", shown(&next));
            (what, Place::of(Path::new(&next)))
        };
        let page = format!("the shelf page {}", shown(&self.page));
        vec![
            (page, Place::of(&self.page)),
            beside(&self.page),
            beside(&end_of_links(&self.page)),
        ]
    }

    /// Is none of these inputs in the place where the next page is written?
    pub fn spare(&self, inputs: &Taken) -> Result<(), Failure> {
        for (next, place) in self.pages().iter().skip(1) {
            if let Some((what, _)) = inputs.iter().find(|(_, input)| input.is(place)) {
                let text = format!("{what} is {next}: it needs a place of its own");
                return Err(Failure::Usage(text));
            }
        }
        Ok(())
    }

    /// The files that no output replaces.
    pub fn taken(&self) -> Taken {
        let mut taken = self.pages();
        let log = format!("the log {}", shown(&self.log));
        taken.push((log, Place::of(&self.log)));
        taken
    }

    /// A new shelf, or for a page that is lost a new page under its log.
    pub fn begin(&self, slots: u16, lost: bool) -> Result<(), Failure> {
        let begun = self.patiently(|| match lost {
            true => Shelf::renew(&self.page, &self.log, slots),
            false => Shelf::create(&self.page, &self.log, slots),
        });
        let failure = |trouble| self.not_begun(trouble, lost);
        begun.map(|_| ()).map_err(failure)
    }

    /// Why there is no new page.
    fn not_begun(&self, trouble: Trouble, lost: bool) -> Failure {
        let why = match trouble {
            Trouble::Exists(Name::Log) => {
                "a new shelf needs a new log; if the page of this log is lost, `--lost` begins a \
                 new one, and every older page is refused from then on"
            }
            Trouble::Exists(Name::Page) => {
                "a page is not replaced: go on with it, or move it away first"
            }
            Trouble::Missing(Name::Log) if lost => {
                "`--lost` goes on with a log; without it a new shelf is made"
            }
            Trouble::Missing(name) => {
                let name = self.name(name);
                return Failure::File(format!("{name}: its folder is not there"));
            }
            other => return self.failure(other),
        };
        Failure::File(format!("{}: {why}", self.told(&trouble)))
    }

    /// The shelf, for this process alone.
    pub fn open(&self) -> Result<Shelf, Failure> {
        let opened = self.patiently(|| Shelf::open(&self.page, &self.log));
        opened.map_err(|trouble| self.failure(trouble))
    }

    /// What is on the shelf, beside other processes. Waits for a call that is at
    /// work.
    pub fn look(&self) -> Result<Status, Failure> {
        let start = Instant::now();
        loop {
            let status = self.patiently(|| Shelf::look(&self.page, &self.log));
            let status = status.map_err(|trouble| self.failure(trouble))?;
            if !status.unfinished || start.elapsed() >= self.wait {
                return Ok(status);
            }
            thread::sleep(PAUSE);
        }
    }

    /// Tries again while another process has the shelf open.
    fn patiently<T>(&self, call: impl Fn() -> Result<T, Trouble>) -> Result<T, Trouble> {
        let start = Instant::now();
        let mut progress = None;
        loop {
            match call() {
                Err(Trouble::Busy) if start.elapsed() < self.wait => {
                    progress.get_or_insert_with(|| Progress::start("waiting for the shelf"));
                    thread::sleep(PAUSE);
                }
                answer => return answer,
            }
        }
    }

    /// Says which stockings a page lacks, if it is from before them.
    pub fn note_stockings(&self, status: Status) {
        if let Standing::Earlier { stockings } = status.standing {
            let later = counted(stockings, "later stocking");
            let are = if stockings == 1 { "is" } else { "are" };
            let page = shown(&self.page);
            tell(&format!("note: {page}: {later} {are} not on this page"));
        }
    }

    /// What a command ends with, with the file's name.
    pub fn failure(&self, trouble: Trouble) -> Failure {
        match trouble {
            Trouble::Refused(refusal) => Failure::Refused(refusal, self.cause(refusal)),
            Trouble::Page(standing) => self.unusable(standing),
            Trouble::Busy => Failure::Busy(format!(
                "{}: another process has the shelf open: `--wait SECONDS` waits for it",
                shown(&self.log)
            )),
            Trouble::NotALog if self.are_swapped() => Failure::File(format!(
                "{} is a shelf page, and {} is a log: they stand in each other's place, and the \
                 log belongs behind --log",
                shown(&self.log),
                shown(&self.page)
            )),
            Trouble::Missing(Name::Log) if !self.page.exists() => Failure::File(format!(
                "{}, nor is the shelf page {}: name those of a shelf, or make a new one with \
                 `{}`, and stock it",
                self.told(&trouble),
                shown(&self.page),
                self.command("")
            )),
            Trouble::Missing(Name::Log) | Trouble::NotALog => Failure::File(format!(
                "{}{}: name the log of this page; if it is lost, {BEGIN_AGAIN}",
                self.told(&trouble),
                other_file(&self.log, Kind::Log)
                    .map_or(String::new(), |other| format!(", {other}"))
            )),
            Trouble::Missing(Name::Page) => Failure::File(format!(
                "{}: put it back, or if it is lost begin a new one with `{}`, and stock it",
                self.told(&trouble),
                self.command(" --lost")
            )),
            Trouble::Damaged { .. } => {
                Failure::File(format!("{}: {BEGIN_AGAIN}", self.told(&trouble)))
            }
            other => Failure::File(self.told(&other)),
        }
    }

    /// Are page and log in each other's place?
    fn are_swapped(&self) -> bool {
        let kinds = [&self.page, &self.log].map(|path| kind_of(path));
        kinds == [Some(Kind::Log), Some(Kind::Page)]
    }

    /// The command that makes a page here.
    fn command(&self, how: &str) -> String {
        let [page, log] = [&self.page, &self.log].map(as_word);
        format!("wv shelf new {page} --log {log} --slots 255{how}")
    }

    /// What to do if the present page is not found.
    fn begin_a_page(&self) -> String {
        format!(
            "put the present page back; if there is none, first move this one away, then begin \
             a new one with `{}`, and stock it",
            self.command(" --lost")
        )
    }

    /// The file's path, and what is wrong with it.
    fn told(&self, trouble: &Trouble) -> String {
        match trouble {
            Trouble::File(name, error) => format!("{}: {error}", self.name(*name)),
            Trouble::Missing(name) | Trouble::Exists(name) => {
                format!("{}: {trouble}", self.name(*name))
            }
            Trouble::NotALog | Trouble::Damaged { .. } => {
                format!("{}: {trouble}", shown(&self.log))
            }
            other => format!("{}: {other}", shown(&self.page)),
        }
    }

    fn name(&self, name: Name) -> String {
        match name {
            Name::Log => shown(&self.log),
            Name::Page => shown(&self.page),
            Name::NextPage => shown(&self.page) + ".next",
        }
    }

    fn cause(&self, refusal: Refusal) -> String {
        let page = shown(&self.page);
        match refusal {
            Refusal::Unsound => match other_file(&self.page, Kind::Page) {
                Some(other) => format!(
                    "{page}: {other}: name the page, and its log behind --log, or put the \
                     present page back"
                ),
                None => format!("{page}: {}", self.begin_a_page()),
            },
            Refusal::Empty => format!("{page}: `wv shelf stock` puts more on it"),
            Refusal::Full => format!("{page}: every slot holds a root, so none is needed now"),
            Refusal::Spent => format!("{page}: make a new shelf with a new log"),
            _ => page,
        }
    }

    /// The failure of a page that cannot be drawn from.
    fn unusable(&self, standing: Standing) -> Failure {
        let [page, log] = [shown(&self.page), shown(&self.log)];
        let counted_15 = |cause| Failure::Refused(Refusal::AnotherCount, cause);
        match standing {
            Standing::Behind { draws } => counted_15(format!(
                "{page} is old, {} behind: {}",
                counted(draws, "draw"),
                self.begin_a_page()
            )),
            Standing::Ahead { draws } => counted_15(format!(
                "{log} was set back, {} behind {page}: {BEGIN_AGAIN}",
                counted(draws, "draw")
            )),
            Standing::SetBack => counted_15(format!("{page}: {log} was set back: {BEGIN_AGAIN}")),
            Standing::Replaced => Failure::Unwanted(format!(
                "{page} is from before a new page was begun under {log}: put the new one back"
            )),
            Standing::Foreign => Failure::Unwanted(format!(
                "{page} and {log} belong to different shelves: name the log of this page"
            )),
            Standing::Unknown => Failure::Unwanted(format!(
                "{page} is damaged or was changed by other hands: put a good page back"
            )),
            other => Failure::Unwanted(format!("{page}: {other}")),
        }
    }
}
