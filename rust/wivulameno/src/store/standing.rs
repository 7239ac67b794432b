//! How a page stands to the log.

use std::fmt;

/// How a page stands to the log.
#[derive(Clone, Copy, Debug, PartialEq, Eq)]
#[non_exhaustive]
pub enum Standing {
    /// The page of the log's last line.
    Present,
    /// The page of as many draws as the log counts, from before this many
    /// stockings. It is drawn from; the roots of those stockings are not on it.
    Earlier {
        /// The stockings that are missing.
        stockings: u64,
    },
    /// An old page of this shelf. Refused with 15.
    Behind {
        /// The draws that are missing.
        draws: u64,
    },
    /// A page with more draws than the log counts: the log was set back. Refused
    /// with 15; the first stocking or draw that meets it writes that into the
    /// log, for good.
    Ahead {
        /// The draws that the log does not know.
        draws: u64,
    },
    /// The log says that it was set back. No page is used any more, whatever is
    /// put back. Refused with 15.
    SetBack,
    /// From before a new page was begun under this log.
    Replaced,
    /// Another shelf's page, or another shelf's log.
    Foreign,
    /// A page of this shelf that the log has never seen.
    Unknown,
}

impl Standing {
    /// Is a page that stands so drawn from and stocked on?
    pub fn is_usable(self) -> bool {
        matches!(self, Standing::Present | Standing::Earlier { .. })
    }

    /// Is it a page that the log has seen?
    pub(super) fn is_seen(self) -> bool {
        self.is_usable() || matches!(self, Standing::Behind { .. } | Standing::Replaced)
    }
}

/// What it is, and what to do.
impl fmt::Display for Standing {
    fn fmt(&self, f: &mut fmt::Formatter) -> fmt::Result {
        match self {
            Standing::Present => write!(f, "the page is the present one"),
            Standing::Earlier { stockings } => {
                let (number, verb) = counted(*stockings, "later stocking", "is", "are");
                write!(f, "{number} {verb} not on this page")
            }
            Standing::Behind { draws } => {
                let (number, verb) = counted(*draws, "draw", "is", "are");
                write!(
                    f,
                    "the page is old: {number} that the log counts {verb} not on it; \
                     put the present page back"
                )
            }
            Standing::Ahead { draws } => {
                let (number, verb) = counted(*draws, "draw", "is", "are");
                write!(
                    f,
                    "the page is ahead: {number} of it {verb} not in the log, so the log was set back; \
                     no page of this shelf can be trusted: make a new shelf with a new log and new roots"
                )
            }
            Standing::SetBack => write!(
                f,
                "the log says that it was set back, so no page of this shelf can be trusted; \
                 make a new shelf with a new log and new roots"
            ),
            Standing::Replaced => write!(
                f,
                "the page is from before a new page was begun under this log; put the new one back"
            ),
            Standing::Foreign => {
                write!(
                    f,
                    "page and log belong to different shelves; give the page its own log"
                )
            }
            Standing::Unknown => write!(
                f,
                "the log has never seen this page: it is damaged or was changed by other hands; \
                 put the present page back"
            ),
        }
    }
}

/// `1 draw is`, `2 draws are`.
fn counted(
    count: u64,
    what: &str,
    one: &'static str,
    many: &'static str,
) -> (String, &'static str) {
    match count {
        1 => (format!("1 {what}"), one),
        _ => (format!("{count} {what}s"), many),
    }
}
