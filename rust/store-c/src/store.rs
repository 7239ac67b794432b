//! The open shelf that C holds a pointer to.

use crate::answer::Answer;
use std::process;
use std::sync::{Mutex, MutexGuard};
use wivulameno::Shelf;

/// `wv_store`: an open shelf. Calls from several threads wait for each other.
#[derive(Debug)]
pub struct Store {
    shelf: Mutex<Shelf>,
    /// A forked process has a copy of the shelf and of its lock, and both would
    /// draw the same root.
    process: u32,
}

impl Store {
    pub(crate) fn new(shelf: Shelf) -> Box<Store> {
        Box::new(Store {
            shelf: Mutex::new(shelf),
            process: process::id(),
        })
    }

    /// The shelf, for one call. Not in a forked process, and not after a panic.
    pub(crate) fn shelf(&self) -> Result<MutexGuard<'_, Shelf>, Answer> {
        match self.process == process::id() {
            true => self.shelf.lock().map_err(|_| Answer::Stopped),
            false => Err(Answer::Stopped),
        }
    }
}

#[cfg(test)]
mod tests {
    use super::*;
    use std::panic::{catch_unwind, AssertUnwindSafe};

    /// After a panic in a call nothing more goes out until the shelf is opened again.
    #[test]
    fn a_panic_stops_the_store() {
        let folder = std::env::temp_dir().join(format!("wivulameno-panic-{}", process::id()));
        std::fs::create_dir_all(&folder).expect("a folder");
        let (page, log) = (folder.join("page"), folder.join("log"));
        let store = Store::new(Shelf::create(&page, &log, 3).expect("a shelf"));
        assert!(store.shelf().is_ok());
        let panicked = catch_unwind(AssertUnwindSafe(|| {
            let _shelf = store.shelf();
            panic!("a test");
        }));
        assert!(panicked.is_err());
        assert_eq!(store.shelf().err(), Some(Answer::Stopped));
        drop(store);
        assert!(Shelf::open(&page, &log).is_ok());
        std::fs::remove_dir_all(&folder).expect("a folder");
    }
}
