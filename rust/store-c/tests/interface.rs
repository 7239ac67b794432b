//! The functions as a C host calls them, beside the Rust store on the same files.

use std::collections::HashSet;
use std::ffi::{c_char, CStr, CString};
use std::fs;
use std::os::unix::ffi::OsStrExt;
use std::path::{Path, PathBuf};
use std::ptr::{null, null_mut};
use std::thread;
use wivulameno::store::{Shelf, Standing};
use wivulameno_store::*;

/// A folder that is removed at the end, with the names of a page and a log.
struct Folder(PathBuf);

impl Folder {
    fn new(name: &str) -> Folder {
        let folder = Path::new(env!("CARGO_TARGET_TMPDIR")).join(name);
        let _ = fs::remove_dir_all(&folder);
        fs::create_dir_all(&folder).expect("a folder");
        Folder(folder)
    }

    fn path(&self, name: &str) -> PathBuf {
        self.0.join(name)
    }

    fn c(&self, name: &str) -> CString {
        CString::new(self.path(name).as_os_str().as_bytes()).expect("no zero byte")
    }

    fn create(&self, slots: u32) -> (u32, Open) {
        let mut store = null_mut();
        let (page, log) = (self.c("page"), self.c("log"));
        // SAFETY: the strings end in a zero byte, the output is a variable.
        let answer = unsafe { wv_store_create(page.as_ptr(), log.as_ptr(), slots, &mut store) };
        (answer, Open(store))
    }

    fn renew(&self, slots: u32) -> (u32, Open) {
        let mut store = null_mut();
        let (page, log) = (self.c("page"), self.c("log"));
        // SAFETY: as above.
        let answer = unsafe { wv_store_renew(page.as_ptr(), log.as_ptr(), slots, &mut store) };
        (answer, Open(store))
    }

    fn open(&self) -> (u32, Open) {
        self.open_with("log")
    }

    fn open_with(&self, log: &str) -> (u32, Open) {
        let mut store = null_mut();
        let (page, log) = (self.c("page"), self.c(log));
        // SAFETY: as above.
        let answer = unsafe { wv_store_open(page.as_ptr(), log.as_ptr(), &mut store) };
        (answer, Open(store))
    }

    fn look(&self) -> (u32, CStatus) {
        let mut status = CStatus::default();
        let (page, log) = (self.c("page"), self.c("log"));
        // SAFETY: as above.
        let answer = unsafe { wv_store_look(page.as_ptr(), log.as_ptr(), &mut status) };
        (answer, status)
    }
}

impl Drop for Folder {
    fn drop(&mut self) {
        let _ = fs::remove_dir_all(&self.0);
    }
}

/// A store, closed at the end.
struct Open(*mut Store);

// SAFETY: the header allows calls from several threads.
unsafe impl Sync for Open {}

impl Open {
    fn stock(&self, root: &[u8]) -> u32 {
        // SAFETY: an open store, and a slice of its length.
        unsafe { wv_store_stock(self.0, root.as_ptr(), root.len()) }
    }

    /// The answer and the root, which was `[0xee; 16]`.
    fn draw(&self) -> (u32, [u8; 16]) {
        let mut root = [0xee; 16];
        // SAFETY: an open store, and 16 bytes.
        let answer = unsafe { wv_store_draw(self.0, &mut root) };
        (answer, root)
    }

    fn status(&self) -> (u32, CStatus) {
        let mut status = CStatus::default();
        // SAFETY: an open store, and a status.
        let answer = unsafe { wv_store_status(self.0, &mut status) };
        (answer, status)
    }
}

impl Drop for Open {
    fn drop(&mut self) {
        // SAFETY: it was not closed, or is null.
        unsafe { wv_store_close(self.0) };
    }
}

fn explained() -> String {
    let mut text = [1; 400];
    // SAFETY: so many bytes.
    let len = unsafe { wv_store_explain(text.as_mut_ptr().cast::<c_char>(), text.len()) };
    assert_eq!(text[len], 0);
    String::from_utf8(text[..len].to_vec()).expect("text")
}

const REFUSED: [u8; 16] = [0xee; 16];

#[test]
fn a_shelf_in_files() {
    let folder = Folder::new("a_shelf");
    let (answer, store) = folder.create(3);
    assert_eq!(answer, 0);
    assert_eq!(store.draw(), (16, REFUSED));
    for number in 1..=3 {
        assert_eq!(store.stock(&[number; 16]), 0);
    }
    assert_eq!(store.stock(&[4; 16]), 17);
    assert_eq!(store.stock(&[4; 15]), 6);
    assert_eq!(store.draw(), (0, [3; 16]));
    let (answer, status) = store.status();
    let expected = CStatus {
        slots: 3,
        ready: 2,
        draws: 1,
        count: 1,
        ..CStatus::default()
    };
    assert_eq!((answer, status), (0, expected));
    assert_eq!(folder.look(), (0, expected));
    assert_eq!(folder.open().0, Answer::Busy.number());
    drop(store);
    let (answer, store) = folder.open();
    assert_eq!((answer, store.draw()), (0, (0, [2; 16])));
    assert_eq!(store.draw(), (0, [1; 16]));
    assert_eq!(store.draw(), (16, REFUSED));
    assert_eq!(explained(), "refused 16: the shelf has no root ready");
}

/// The files are the Rust store's: each goes on where the other stopped.
#[test]
fn the_same_files() {
    let folder = Folder::new("the_same");
    let (page, log) = (folder.path("page"), folder.path("log"));
    for turn in 0..6 {
        let mut shelf = match turn {
            0 => Shelf::create(&page, &log, 7).expect("a shelf"),
            _ => Shelf::open(&page, &log).expect("a shelf"),
        };
        shelf.stock(&[10 + turn; 16]).expect("room");
        shelf.stock(&[50 + turn; 16]).expect("room");
        drop(shelf);
        let (answer, store) = folder.open();
        assert_eq!(answer, 0);
        assert_eq!(store.draw(), (0, [50 + turn; 16]));
        assert_eq!(store.stock(&[90 + turn; 16]), 0);
        drop(store);
        let mut shelf = Shelf::open(&page, &log).expect("a shelf");
        assert_eq!(shelf.draw().expect("a root"), [90 + turn; 16]);
        let rust = shelf.status().expect("a status");
        assert_eq!(rust.standing, Standing::Present);
        assert_eq!(folder.look(), (0, rust.into()));
    }
    assert_eq!(folder.look().1.count, 12);
}

/// An old page, a page ahead, a page that was replaced, and pages of others.
#[test]
fn pages_put_back() {
    let folder = Folder::new("put_back");
    let page = folder.path("page");
    let (_, store) = folder.create(255);
    assert_eq!(store.stock(&[1; 16]), 0);
    let old_log = fs::read(folder.path("log")).expect("a log");
    let earlier = fs::read(&page).expect("a page");
    assert_eq!(store.stock(&[2; 16]), 0);
    let old = fs::read(&page).expect("a page");
    assert_eq!(store.draw(), (0, [2; 16]));
    let present = fs::read(&page).expect("a page");

    fs::write(&page, &old).expect("a page");
    assert_eq!(store.draw(), (15, REFUSED));
    assert!(explained().starts_with("refused 15: the page is old: 1 draw "));
    let status = store.status().1;
    assert_eq!((status.page, status.missing, status.answer), (2, 1, 15));
    fs::write(&page, &earlier).expect("a page");
    assert_eq!(store.draw(), (15, REFUSED));

    let mut unknown = present.clone();
    let root = unknown.windows(16).position(|bytes| bytes == [1; 16]);
    unknown[root.expect("the root")] = 9;
    fs::write(&page, &unknown).expect("a page");
    assert_eq!(store.draw(), (Answer::Unknown.number(), REFUSED));
    fs::write(&page, &present[1..]).expect("a page");
    assert_eq!(store.draw(), (14, REFUSED));
    assert_eq!(store.status().0, 14);

    fs::remove_file(&page).expect("a page");
    assert_eq!(store.draw(), (Answer::NoPage.number(), REFUSED));
    drop(store);
    let (answer, store) = folder.renew(255);
    assert_eq!(answer, 0);
    fs::write(&page, &present).expect("a page");
    assert_eq!(store.draw(), (Answer::Replaced.number(), REFUSED));
    drop(store);

    let other = Folder::new("put_back_other");
    let (_, store) = other.create(255);
    fs::write(other.path("page"), &present).expect("a page");
    assert_eq!(store.draw(), (Answer::Foreign.number(), REFUSED));

    fs::write(folder.path("log"), old_log).expect("a log");
    let (_, store) = folder.open();
    assert_eq!((store.status().1.page, store.status().1.missing), (3, 1));
    assert_eq!(store.draw(), (15, REFUSED));
    assert_eq!(store.status().1.page, 4);
    fs::write(&page, &earlier).expect("a page");
    assert_eq!(store.draw(), (15, REFUSED));
}

#[test]
fn files_that_are_not_good() {
    let folder = Folder::new("not_good");
    assert_eq!(folder.open().0, Answer::NoLog.number());
    assert_eq!(folder.look().0, Answer::NoLog.number());
    drop(folder.create(3));
    assert_eq!(folder.create(3).0, Answer::PageExists.number());
    fs::remove_file(folder.path("page")).expect("a page");
    assert_eq!(folder.create(3).0, Answer::LogExists.number());
    assert_eq!(folder.open().0, Answer::NoPage.number());
    assert_eq!(folder.renew(3).0, 0);
    assert_eq!(folder.open_with("page").0, Answer::SameFile.number());
    assert_eq!(folder.open_with("page.next").0, Answer::SameFile.number());
    let log = fs::read(folder.path("log")).expect("a log");
    fs::write(folder.path("log"), b"no log").expect("a log");
    assert_eq!(folder.open().0, Answer::NotALog.number());
    let mut damaged = log.clone();
    damaged[60] ^= 1;
    fs::write(folder.path("log"), damaged).expect("a log");
    assert_eq!(folder.open().0, Answer::DamagedLog.number());
    assert_eq!(explained(), "line 2 of the log is damaged");
    fs::write(folder.path("log"), log).expect("a log");
    let (answer, store) = folder.open();
    assert_eq!(answer, 0);
    fs::remove_file(folder.path("page")).expect("a page");
    fs::create_dir(folder.path("page")).expect("a folder");
    assert_eq!(store.draw(), (Answer::File.number(), REFUSED));
    fs::remove_dir(folder.path("page")).expect("a folder");
}

/// After a write that failed the store is stopped, until it is opened again.
#[test]
fn a_write_that_fails() {
    let folder = Folder::new("fails");
    let (_, store) = folder.create(3);
    assert_eq!(store.stock(&[1; 16]), 0);
    fs::create_dir(folder.path("page.next")).expect("a folder");
    assert_eq!(store.draw(), (Answer::File.number(), REFUSED));
    assert_eq!(store.draw(), (Answer::Stopped.number(), REFUSED));
    fs::remove_dir(folder.path("page.next")).expect("a folder");
    assert_eq!(store.draw(), (Answer::Stopped.number(), REFUSED));
    drop(store);
    let (answer, store) = folder.open();
    assert_eq!(answer, 0);
    // The draw was counted, and its root is lost.
    assert_eq!(store.draw(), (16, REFUSED));
    assert_eq!(store.status().1.count, 1);
}

/// A null pointer is told before anything is done, and no output is written.
#[test]
fn null_pointers_and_slots() {
    let folder = Folder::new("nulls");
    let (page, log) = (folder.c("page"), folder.c("log"));
    let (page, log) = (page.as_ptr(), log.as_ptr());
    let argument = Answer::Argument.number();
    let untouched = null_mut::<Store>().wrapping_byte_add(8);
    let mut store = untouched;
    let mut status = CStatus::default();
    let mut root = REFUSED;
    // SAFETY: the header allows null pointers, and answers them.
    unsafe {
        assert_eq!(wv_store_create(null(), log, 3, &mut store), argument);
        assert_eq!(wv_store_create(page, null(), 3, &mut store), argument);
        assert_eq!(wv_store_create(page, log, 3, null_mut()), argument);
        for slots in [0, 256, 65_536, 65_537, u32::MAX] {
            assert_eq!(wv_store_create(page, log, slots, &mut store), argument);
            assert_eq!(wv_store_renew(page, log, slots, &mut store), argument);
        }
        assert_eq!(wv_store_renew(page, log, 3, null_mut()), argument);
        assert_eq!(wv_store_open(null(), log, &mut store), argument);
        assert_eq!(wv_store_open(page, null(), &mut store), argument);
        assert_eq!(wv_store_open(page, log, null_mut()), argument);
        assert_eq!(wv_store_look(page, log, null_mut()), argument);
        assert_eq!(wv_store_look(null(), log, &mut status), argument);
        assert_eq!(wv_store_stock(null(), root.as_ptr(), 16), argument);
        assert_eq!(wv_store_draw(null(), &mut root), argument);
        assert_eq!(wv_store_status(null(), &mut status), argument);
        wv_store_close(null_mut());
    }
    assert_eq!(fs::read_dir(&folder.0).expect("a folder").count(), 0);
    assert_eq!((store, root), (untouched, REFUSED));
    assert_eq!(status, CStatus::default());
    let (_, store) = folder.create(3);
    // SAFETY: as above.
    unsafe {
        assert_eq!(wv_store_stock(store.0, null(), 16), argument);
        assert_eq!(wv_store_draw(store.0, null_mut()), argument);
        assert_eq!(wv_store_status(store.0, null_mut()), argument);
    }
    assert_eq!(store.stock(&[1; 16]), 0);
}

/// Eight threads on one store: every root goes out once.
#[test]
fn several_threads() {
    let folder = Folder::new("threads");
    let (_, store) = folder.create(40);
    thread::scope(|scope| {
        for first in 0..8_u8 {
            let store = &store;
            scope.spawn(move || {
                for number in 0..5 {
                    assert_eq!(store.stock(&[5 * first + number; 16]), 0);
                }
            });
        }
    });
    let drawn = thread::scope(|scope| {
        let draw = || (0..5).map(|_| store.draw()).collect::<Vec<_>>();
        let threads: Vec<_> = (0..8).map(|_| scope.spawn(draw)).collect();
        let drawn = threads.into_iter().map(|thread| thread.join());
        drawn
            .flat_map(|drawn| drawn.expect("no panic"))
            .collect::<Vec<_>>()
    });
    assert!(drawn.iter().all(|(answer, _)| *answer == 0));
    let different: HashSet<_> = drawn.iter().collect();
    assert_eq!(different.len(), 40);
    assert_eq!(store.draw(), (16, REFUSED));
}

#[test]
fn sentences_and_version() {
    // SAFETY: the library's strings end in a zero byte and stay.
    let text = |answer| unsafe { CStr::from_ptr(wv_store_text(answer)) };
    assert_eq!(text(0), c"done");
    assert_eq!(text(16), c"the shelf has no root ready");
    assert_eq!(text(107), c"the shelf is open elsewhere");
    assert_eq!(text(4), c"no answer of this library");
    // SAFETY: as above.
    let version = unsafe { CStr::from_ptr(wv_store_version()) };
    assert_eq!(version.to_str(), Ok(env!("CARGO_PKG_VERSION")));
    assert_eq!(version.to_str(), Ok(wivulameno::VERSION));
}

/// As snprintf: what fits, a zero byte, and the whole length.
#[test]
fn an_explanation_that_is_cut() {
    let folder = Folder::new("cut");
    assert_eq!(folder.open().0, Answer::NoLog.number());
    let whole = explained();
    assert_eq!(whole, "the log is not there");
    for len in 0..=whole.len() + 2 {
        let mut text = [1_u8; 64];
        // SAFETY: the array has more than `len` bytes.
        let told = unsafe { wv_store_explain(text.as_mut_ptr().cast(), len) };
        assert_eq!(told, whole.len());
        let shown = len.saturating_sub(1).min(whole.len());
        assert_eq!(text[..shown], whole.as_bytes()[..shown]);
        let end = usize::from(len > 0);
        assert!(text[shown..shown + end].iter().all(|&byte| byte == 0));
        assert!(text[shown + end..].iter().all(|&byte| byte == 1), "{len}");
    }
    // SAFETY: nothing is written.
    assert_eq!(unsafe { wv_store_explain(null_mut(), 9) }, whole.len());
}
