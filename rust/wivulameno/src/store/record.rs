//! The text of a log: what is written, and what is read back.
//!
//! The first line is `wivulameno log 1` and the identity, 50 bytes. Every other
//! line has 51 bytes: what happened, the draws of the page after it, and a
//! digest of that page; then a full stop, from which on the line counts; then
//! the line's end, which says that the page is in place.
//!
//! | line    | what happened                                             |
//! |---------|-----------------------------------------------------------|
//! | `page`  | a new page without roots is begun; older ones are refused |
//! | `stock` | a root was put on the page                                |
//! | `draw`  | a root was taken off the page                             |
//! | `ahead` | a page was met that has more draws than the log counts    |

use super::identity::Identity;
use super::page::{digest, Digest, Page};
use super::{Standing, Trouble};

/// The start of the first line, with the version.
const FIRST: &[u8] = b"wivulameno log 1 ";
/// The bytes of the first line.
pub(super) const HEADER: usize = FIRST.len() + 32 + 1;
/// The bytes of a line up to the full stop: `draw  0000000001 ` and 32 digits.
pub(super) const TEXT: usize = 49;
/// The bytes of a line with its full stop and its end.
pub(super) const LINE: usize = TEXT + 2;
const MARKS: &[u8; 2] = b".\n";

/// What a line tells.
#[derive(Clone, Copy, Debug, PartialEq, Eq)]
pub(super) enum Kind {
    Page,
    Stock,
    Draw,
    Ahead,
}

impl Kind {
    const ALL: [Kind; 4] = [Kind::Page, Kind::Stock, Kind::Draw, Kind::Ahead];

    fn word(self) -> &'static str {
        match self {
            Kind::Page => "page",
            Kind::Stock => "stock",
            Kind::Draw => "draw",
            Kind::Ahead => "ahead",
        }
    }
}

/// A line: what happened, and the page after it.
#[derive(Clone, Copy, Debug, PartialEq, Eq)]
pub(super) struct Line {
    pub kind: Kind,
    pub draws: u64,
    pub digest: Digest,
}

impl Line {
    /// The line up to its full stop.
    pub fn text(&self) -> Vec<u8> {
        let (word, draws) = (self.kind.word(), self.draws);
        format!("{word:<5} {draws:010} {}", self.digest).into_bytes()
    }

    /// The line that has this text, if it is one that may follow `count` draws.
    fn read(text: &[u8], count: u64) -> Option<Line> {
        let digest = Digest::read(text.get(TEXT - 32..TEXT)?)?;
        let draws = std::str::from_utf8(&text[6..16]).ok()?.parse().ok()?;
        let mut lines = Kind::ALL.map(|kind| Line {
            kind,
            draws,
            digest,
        });
        let line = lines.iter_mut().find(|line| line.text() == text)?;
        let fits = match line.kind {
            Kind::Page | Kind::Stock => draws == count,
            Kind::Draw => draws == count + 1,
            Kind::Ahead => draws > count,
        };
        fits.then_some(*line)
    }
}

/// The first line of a log.
pub(super) fn header(identity: Identity) -> Vec<u8> {
    [FIRST, identity.to_string().as_bytes(), b"\n"].concat()
}

/// What the bytes of a log say.
#[derive(Debug)]
pub(super) struct Record {
    pub identity: Identity,
    /// The lines that count.
    pub lines: Vec<Line>,
    /// The last line has no end yet.
    pub is_due: bool,
    /// A mark of the last line is torn: only its place is there.
    pub is_torn: bool,
}

impl Record {
    /// A line without its full stop does not count. All others must be as
    /// written, but for the last one's marks, which can be torn.
    pub fn read(bytes: &[u8]) -> Result<Record, Trouble> {
        let identity = Identity::of_header(bytes, FIRST).ok_or(Trouble::NotALog)?;
        let body = &bytes[HEADER..];
        let body = match body.len() % LINE <= TEXT {
            true => &body[..body.len() / LINE * LINE],
            false => body,
        };
        let mut record = Record {
            identity,
            lines: Vec::new(),
            is_due: !body.len().is_multiple_of(LINE),
            is_torn: false,
        };
        let last = body.len().div_ceil(LINE);
        for (place, line) in (1..).zip(body.chunks(LINE)) {
            let read = record.take(line, place == last);
            let line = place as u64 + 1;
            read.ok_or(Trouble::Damaged { line })?;
        }
        Ok(record)
    }

    fn take(&mut self, bytes: &[u8], is_last: bool) -> Option<()> {
        let (text, marks) = bytes.split_at(TEXT);
        let line = Line::read(text, self.count())?;
        let may_follow = match self.lines.last() {
            None => line.kind == Kind::Page,
            Some(before) => before.kind != Kind::Ahead,
        };
        for (&found, &mark) in marks.iter().zip(MARKS) {
            let is_torn = is_last && found == 0;
            self.is_torn |= is_torn;
            (found == mark || is_torn).then_some(())?;
        }
        may_follow.then(|| self.lines.push(line))
    }

    /// The accepted draws.
    pub fn count(&self) -> u64 {
        let mut lines = self.lines.iter().rev();
        let counting = lines.find(|line| line.kind != Kind::Ahead);
        counting.map_or(0, |line| line.draws)
    }

    /// The bytes that count, with the end of the last line.
    pub fn len(&self) -> u64 {
        (HEADER + self.lines.len() * LINE) as u64
    }

    /// Was a page in place under this log?
    pub fn had_page(&self) -> bool {
        self.lines.len() > usize::from(self.is_due)
    }

    pub fn is_set_back(&self) -> bool {
        self.lines
            .last()
            .is_some_and(|line| line.kind == Kind::Ahead)
    }

    /// How a sound page stands to this log.
    pub fn standing(&self, bytes: &[u8]) -> Standing {
        let (page, digest, count) = (Page::of(bytes), digest(bytes), self.count());
        let draws = u64::from(page.draws);
        if self.is_set_back() {
            return Standing::SetBack;
        }
        let seen = self.lines.iter().rposition(|line| line.digest == digest);
        match seen {
            Some(place) => self.standing_of(place, draws),
            None if page.order() != self.identity.order(page.slots()) => Standing::Foreign,
            None if draws > count => Standing::Ahead {
                draws: draws - count,
            },
            None => Standing::Unknown,
        }
    }

    /// The standing of the page of a line.
    fn standing_of(&self, place: usize, draws: u64) -> Standing {
        let later = &self.lines[place + 1..];
        let missing = self.count() - draws;
        match later.len() as u64 {
            _ if later.iter().any(|line| line.kind == Kind::Page) => Standing::Replaced,
            _ if missing > 0 => Standing::Behind { draws: missing },
            0 => Standing::Present,
            stockings => Standing::Earlier { stockings },
        }
    }
}
