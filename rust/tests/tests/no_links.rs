//! A shelf on a file system that has no links: page and log are then made in place. Here no
//! link can be made, by whatever process of this test.
#![cfg(target_os = "linux")]

use std::ffi::{c_char, c_int};
use std::fs;
use std::os::unix::fs::PermissionsExt;
use std::path::{Path, PathBuf};
use std::sync::atomic::{AtomicUsize, Ordering};
use wivulameno::store::{Name, Standing, Trouble};
use wivulameno::Shelf;

extern "C" {
    fn __errno_location() -> *mut c_int;
}

/// As Linux has it: the operation is not permitted.
const EPERM: c_int = 1;

static REFUSED: AtomicUsize = AtomicUsize::new(0);

/// Stands in for the system's call.
///
/// # Safety
///
/// The pointers are not read.
#[no_mangle]
pub unsafe extern "C" fn linkat(
    _: c_int,
    _: *const c_char,
    _: c_int,
    _: *const c_char,
    _: c_int,
) -> c_int {
    REFUSED.fetch_add(1, Ordering::SeqCst);
    // SAFETY: the number of this thread's last error.
    unsafe { *__errno_location() = EPERM };
    -1
}

fn folder(name: &str) -> PathBuf {
    let folder = Path::new(env!("CARGO_TARGET_TMPDIR")).join(name);
    let _ = fs::remove_dir_all(&folder);
    fs::create_dir_all(&folder).expect("a folder");
    folder
}

#[test]
fn a_shelf_is_made_in_place() {
    let folder = folder("no_links");
    let [page, log] = ["page", "log"].map(|name| folder.join(name));
    let before = REFUSED.load(Ordering::SeqCst);
    let mut shelf = Shelf::create(&page, &log, 3).expect("a shelf");
    assert!(REFUSED.load(Ordering::SeqCst) >= before + 2, "page and log");
    // The log is locked from the moment that it has its name.
    assert!(matches!(Shelf::open(&page, &log), Err(Trouble::Busy)));
    shelf.stock(&[1; 16]).expect("room");
    shelf.stock(&[2; 16]).expect("room");
    assert_eq!(shelf.draw().expect("a root"), [2; 16]);
    drop(shelf);
    assert_eq!(fs::read_dir(&folder).expect("a folder").count(), 2);
    for path in [&page, &log] {
        let mode = fs::metadata(path).expect("a file").permissions().mode();
        assert_eq!(mode & 0o777, 0o600);
    }
    let mut shelf = Shelf::open(&page, &log).expect("a shelf");
    let status = shelf.status().expect("a status");
    assert_eq!((status.standing, status.count), (Standing::Present, 1));
    assert_eq!(shelf.draw().expect("a root"), [1; 16]);
    fs::remove_dir_all(&folder).expect("a folder");
}

/// Nothing that is there is replaced, and nothing is left beside it.
#[test]
fn nothing_is_replaced() {
    let folder = folder("no_links_kept");
    let [page, log, other] = ["page", "log", "other"].map(|name| folder.join(name));
    drop(Shelf::create(&page, &log, 3).expect("a shelf"));
    let files = || [&page, &log].map(|path| fs::read(path).expect("a file"));
    let before = files();
    let made = Shelf::create(&other, &log, 3).err();
    assert!(matches!(made, Some(Trouble::Exists(Name::Log))), "{made:?}");
    let made = Shelf::create(&page, &other, 3).err();
    assert!(
        matches!(made, Some(Trouble::Exists(Name::Page))),
        "{made:?}"
    );
    assert_eq!(files(), before);
    assert_eq!(fs::read_dir(&folder).expect("a folder").count(), 2);
    fs::remove_dir_all(&folder).expect("a folder");
}
