//! A shelf that a host keeps in files: the page, and beside it the log that
//! counts the accepted draws and knows the pages that it has seen.
//!
//! # What must hold
//!
//! No root goes out twice, whatever is cut off and whatever old page is put
//! back. The library answers a draw with 15 unless the page's draws is the count
//! that it is lent. Its theorem on histories says that no stocked root is drawn
//! twice, if two things hold of the host:
//!
//! 1. The log counts each accepted draw before the next call, and its count never
//!    goes down.
//! 2. A page that is put back is one that this history has had.
//!
//! The second one decides the order. Say the new page were written first and the
//! log after it, and the draw were cut off between the two: then a page is on
//! disk whose draw does not count, and a snapshot can keep it. Stock S, then R:
//! the page has R, S ready. A draw takes R, its page (one draw, S ready) is
//! written, and there it is cut off. The page from before R was stocked is put
//! back (no draws, S ready); the log's count is still 0, so it is good, and S is
//! drawn and used. Now the snapshot of that other page is put back: one draw, as
//! the log counts, and S goes out again.
//!
//! # The log
//!
//! Its first line has a version and an identity. Every stocking and every draw
//! that is accepted leaves a line with the draws and a digest of the page after
//! it, on disk before that page is. So every page that this shelf ever had on
//! disk is one that the log has seen, and a page is compared with the log before
//! it is drawn from or stocked on ([`Standing`]):
//!
//! | the page                                     | what follows                      |
//! |----------------------------------------------|-----------------------------------|
//! | is that of the last line                     | it is the present one             |
//! | has the log's count, but later stockings are missing | it is used; their roots are lost, unless the later page is put back in time |
//! | was seen, with fewer draws                   | 15: the page is old, put the present one back |
//! | has more draws than the log counts           | 15: the log was set back          |
//! | is from before a new page was begun          | refused                           |
//! | has the slots of another shelf               | refused: page and log do not belong together |
//! | was never seen                               | refused: damaged, or changed by other hands |
//!
//! No crash and no old page puts a page ahead of the log: only a log that was set
//! back does. Then some page of the past has the log's count again, and its roots
//! were used. So the first stocking or draw that meets a page ahead writes that
//! into the log, for good, and no root of this shelf goes out any more, whatever
//! page is put back. A log and a page that are set back together, before anybody
//! looked, cannot be told from the past: this stays the host's duty.
//!
//! A page has no room for the identity. It stands in the order of its slots,
//! which no stocking and no draw changes: the ready chain backwards, then the
//! spare chain. (One slot has one order, and few slots have few: the fewer they
//! are, the more a page of another shelf looks like one that was never seen, or
//! one that is ahead.)
//!
//! # The order of a draw
//!
//! 1. Compare the page with the log. Draw from the page in memory, with the log's
//!    count.
//! 2. Write the log's line, with the digest of the new page. Wait for the disk.
//! 3. Write the full stop that makes the line count. Wait for the disk.
//! 4. Write the new page beside the old one, wait, rename it, wait.
//! 5. Write the line's end, which says that the page is in place. Wait.
//! 6. Give out the root.
//!
//! So a page gets on disk only when its draw counts, and it is a page of the
//! history, also when the draw is cut off behind 3. And each count belongs to one
//! draw: a page on disk with more than d draws comes from the page that the draw
//! at count d left, and no longer has its root. That root is used when the log
//! counts more than d, on disk; every page that still has it is refused from
//! then on, for good.
//!
//! Were the page written in place, or the old one removed before the new one is
//! whole, a cut would cost all roots; so it is written beside, and renamed in one
//! step. Wherever the draw is cut off, [`Shelf::open`] goes on:
//!
//! - cut before 3 is done: the line does not count, the root is still on the
//!   page and was not given out. The next line takes the place of this one. The
//!   full stop is one byte, which is there or not; if only its place is there, it
//!   counts.
//! - cut behind 3: the line has no end. The page in place is the one from before
//!   the draw, or already the one from after it. From the one before, the draw is
//!   made again, and if the page that it leaves has the digest in the line, that
//!   page is put in place. The root was not given out, and is lost.
//!
//! One root at most is lost by a cut. A line that has its end is not made good: a
//! page that is behind it was put back, and its draws are refused with 15.
//!
//! A stocking goes the same way. It leaves the draws as they are, so a cut leaves
//! the page with the root or without it; if without, its line stays, and the page
//! in place is one from before a stocking. Take a new root then, not the same
//! one: each stocking counts as its own, so a root that is stocked twice can be
//! drawn twice.
//!
//! What was read is not always what is on disk: a process can be killed after
//! it wrote and before it waited. So opening waits until the log that it read is
//! on disk, before it looks at the page. And a write that fails leaves open how
//! far it came: then the shelf is stopped ([`Trouble::Stopped`]), and only
//! opening it again looks at what is there.
//!
//! # What the host does
//!
//! - The log lies where no restore, rollback or snapshot reaches it, and is
//!   never deleted, shortened or replaced by an older copy. A log that is set
//!   back together with the page cannot be seen.
//! - A missing log, or a file that is no log, is an error and not a count of 0. If
//!   the log is lost, no page that it counted for can be trusted: delete them all,
//!   wherever they were copied to, before a new shelf is begun.
//! - Page and log are not copied to a second host that draws from them too: each
//!   would count its own draws.
//! - Each stocked root is new and random, and no copy of it is kept.
//! - An open shelf holds a lock on the log, so that two processes cannot draw
//!   the same root. A host with its own file layer implements [`Files`] and sees
//!   to this.
//!
//! ```
//! use wivulameno::{Refusal, Shelf};
//!
//! # let folder = std::env::temp_dir().join(format!("wivulameno-{}", std::process::id()));
//! # std::fs::create_dir_all(&folder)?;
//! # let (page, log) = (folder.join("shelf.page"), folder.join("shelf.log"));
//! # let root = [7; 16];
//! let mut shelf = Shelf::create(&page, &log, 255)?;
//! shelf.stock(&root)?;
//! let root = shelf.draw()?; // it is counted by now, on disk
//! # assert_eq!(root, [7; 16]);
//! assert_eq!(shelf.draw().unwrap_err().refusal(), Some(Refusal::Empty));
//! # std::fs::remove_dir_all(&folder)?;
//! # Ok::<(), Box<dyn std::error::Error>>(())
//! ```

mod disk;
mod files;
mod identity;
mod log;
mod page;
mod record;
mod shelf;
mod standing;
mod trouble;

pub use disk::Disk;
pub use files::{Files, Name};
pub use identity::Identity;
pub use log::Log;
pub use shelf::{Shelf, Status};
pub use standing::Standing;
pub use trouble::Trouble;
