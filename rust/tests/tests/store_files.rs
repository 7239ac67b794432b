//! A shelf in the operating system's files.

use std::fs;
use std::path::{Path, PathBuf};
use wivulameno::store::{Name, Standing, Trouble};
use wivulameno::{Log, Refusal, Shelf};

/// A folder of this test's own, removed at the end.
struct Folder(PathBuf);

impl Folder {
    fn new(name: &str) -> Folder {
        let folder = Path::new(env!("CARGO_TARGET_TMPDIR")).join(name);
        let _ = fs::remove_dir_all(&folder);
        fs::create_dir_all(&folder).expect("a folder");
        Folder(folder)
    }

    fn page(&self) -> PathBuf {
        self.0.join("shelf.page")
    }

    fn log(&self) -> PathBuf {
        self.0.join("shelf.log")
    }

    fn open(&self) -> Result<Shelf, Trouble> {
        Shelf::open(self.page(), self.log())
    }
}

impl Drop for Folder {
    fn drop(&mut self) {
        let _ = fs::remove_dir_all(&self.0);
    }
}

#[test]
fn a_shelf_lives_in_two_files() {
    let folder = Folder::new("two_files");
    let mut shelf = Shelf::create(folder.page(), folder.log(), 4).expect("a new shelf");
    shelf.stock(&[1; 16]).expect("room");
    shelf.stock(&[2; 16]).expect("room");
    assert_eq!(shelf.draw().expect("a root"), [2; 16]);
    drop(shelf);

    let mut shelf = folder.open().expect("a shelf");
    let status = shelf.status().expect("a sound page");
    assert_eq!((status.slots, status.ready), (4, 1));
    assert_eq!((status.draws, status.count), (1, 1));
    assert_eq!(
        (status.standing, status.unfinished),
        (Standing::Present, false)
    );
    assert!(status.trouble().is_none());
    let log = fs::read_to_string(folder.log()).unwrap();
    let words: Vec<_> = log.lines().map(|line| line.split(' ').next()).collect();
    let expected = ["wivulameno", "page", "stock", "stock", "draw"];
    assert_eq!(words, expected.map(Some));
    let names = fs::read_dir(&folder.0).unwrap().count();
    assert_eq!(names, 2, "no page is left beside the page");
}

#[test]
fn an_old_page_put_back_is_refused() {
    let folder = Folder::new("put_back");
    let mut shelf = Shelf::create(folder.page(), folder.log(), 4).expect("a new shelf");
    shelf.stock(&[1; 16]).expect("room");
    let old = fs::read(folder.page()).unwrap();
    shelf.draw().expect("a root");
    drop(shelf);
    fs::write(folder.page(), old).unwrap();
    let trouble = folder.open().expect("a shelf").draw().unwrap_err();
    assert_eq!(trouble.refusal(), Some(Refusal::AnotherCount));
}

/// A cut behind the log's full stop: the page is from before the draw.
#[test]
fn a_counted_draw_is_finished() {
    let folder = Folder::new("finished");
    let mut shelf = Shelf::create(folder.page(), folder.log(), 4).expect("a new shelf");
    shelf.stock(&[1; 16]).expect("room");
    shelf.stock(&[2; 16]).expect("room");
    let old = fs::read(folder.page()).unwrap();
    shelf.draw().expect("a root");
    drop(shelf);
    let log = fs::read(folder.log()).unwrap();
    fs::write(folder.log(), &log[..log.len() - 1]).unwrap();
    fs::write(folder.page(), old).unwrap();
    fs::write(folder.0.join("shelf.page.next"), b"torn").unwrap();
    let mut shelf = folder.open().expect("a shelf");
    assert_eq!(fs::read(folder.log()).unwrap(), log);
    assert_eq!(shelf.draw().expect("a root"), [1; 16]);
    assert_eq!(fs::read_dir(&folder.0).unwrap().count(), 2);
}

#[test]
fn one_process_at_a_time() {
    let folder = Folder::new("lock");
    let shelf = Shelf::create(folder.page(), folder.log(), 4).expect("a new shelf");
    assert!(matches!(folder.open(), Err(Trouble::Busy)));
    assert!(matches!(Log::open(folder.log()), Err(Trouble::Busy)));
    drop(shelf);
    assert!(folder.open().is_ok());
}

#[test]
fn what_is_not_there() {
    let folder = Folder::new("not_there");
    assert!(matches!(folder.open(), Err(Trouble::Missing(Name::Log))));
    let log = Log::create(folder.log()).expect("a new log");
    assert_eq!(log.count(), 0);
    drop(log);
    assert!(matches!(
        Log::create(folder.log()),
        Err(Trouble::Exists(Name::Log))
    ));
    assert!(matches!(folder.open(), Err(Trouble::Missing(Name::Page))));
    fs::write(folder.page(), b"").unwrap();
    let created = Shelf::create(folder.page(), folder.log(), 4);
    assert!(matches!(created, Err(Trouble::Exists(Name::Page))));
    let trouble = folder.open().expect("a shelf").draw().unwrap_err();
    assert_eq!(trouble.refusal(), Some(Refusal::Unsound));
}

/// A host that keeps the page elsewhere has the log alone.
#[test]
fn a_log_counts_on() {
    let folder = Folder::new("log_alone");
    let mut log = Log::create(folder.log()).expect("a new log");
    let mut page = log.begin(3).expect("a page");
    assert_eq!(page.len(), 12 + 3 * 18);
    for root in 1..=3 {
        log.stock(&mut page, &[root; 16]).expect("room");
        log.close().expect("noted");
    }
    for count in 1..=2 {
        assert_eq!(log.draw(&mut page).expect("a root"), [4 - count; 16]);
        log.close().expect("noted");
        assert_eq!((log.count(), log.is_due()), (u64::from(count), false));
    }
    let before = page.clone();
    log.draw(&mut page).expect("a root");
    drop(log);
    let mut log = Log::open(folder.log()).expect("a log");
    assert_eq!((log.count(), log.is_due()), (3, true));
    let other = tests::pages::page(&[2, 3], &[1], 2);
    assert_eq!(log.redo(&other, None), None);
    assert_eq!(log.redo(&before, None), Some(page.clone()));
    assert_eq!(log.redo(&other, Some(&page)), Some(page.clone()));
    log.close().expect("noted");
    assert!(!log.is_due() && log.redo(&before, None).is_none());
    let trouble = log.draw(&mut before.clone()).unwrap_err();
    assert!(matches!(
        trouble,
        Trouble::Page(Standing::Behind { draws: 1 })
    ));
}

#[cfg(unix)]
#[test]
fn nobody_else_reads_the_page() {
    use std::os::unix::fs::PermissionsExt;
    extern "C" {
        fn umask(mask: std::ffi::c_uint) -> std::ffi::c_uint;
    }
    // SAFETY: new files of this process may be read by others, unless it asks for less.
    unsafe { umask(0o022) };
    let folder = Folder::new("mode");
    let mut shelf = Shelf::create(folder.page(), folder.log(), 4).expect("a new shelf");
    shelf.stock(&[1; 16]).expect("room");
    for path in [folder.page(), folder.log()] {
        let mode = fs::metadata(path).unwrap().permissions().mode();
        assert_eq!(mode & 0o077, 0);
    }
}

/// A page behind a symbolic link is written where the link leads.
#[cfg(unix)]
#[test]
fn a_page_behind_a_link() {
    use std::os::unix::fs::symlink;
    let folder = Folder::new("link");
    let (real, link) = (folder.0.join("real"), folder.page());
    fs::create_dir(&real).unwrap();
    let there = real.join("page");
    symlink("real/page", &link).unwrap();
    let mut shelf = Shelf::create(&link, folder.log(), 4).expect("a new shelf");
    shelf.stock(&[1; 16]).expect("room");
    drop(shelf);
    assert_eq!(
        folder.open().expect("a shelf").draw().expect("a root"),
        [1; 16]
    );
    assert!(fs::symlink_metadata(&link).unwrap().is_symlink());
    assert!(fs::symlink_metadata(&there).unwrap().is_file());
    assert_eq!(fs::read_dir(&real).unwrap().count(), 1);
    let seen = Shelf::look(&there, folder.log()).expect("a status");
    assert_eq!((seen.draws, seen.standing), (1, Standing::Present));
}

/// Page and log are two files, whatever they are called.
#[cfg(unix)]
#[test]
fn one_file_for_both() {
    use std::os::unix::fs::symlink;
    let folder = Folder::new("same");
    let one = folder.page();
    let is_same = |page: &Path, log: &Path| {
        let made = Shelf::create(page, log, 4).err();
        let opened = Shelf::open(page, log).err();
        let looked = Shelf::look(page, log).err();
        let all = [made, opened, looked];
        all.iter()
            .all(|trouble| matches!(trouble, Some(Trouble::SameFile)))
    };
    assert!(is_same(&one, &one));
    assert!(is_same(&one, &folder.0.join("./shelf.page")));
    assert!(is_same(&one, &folder.0.join("shelf.page.next")));
    symlink("shelf.page", folder.log()).unwrap();
    assert!(is_same(&one, &folder.log()));
    fs::write(&one, b"any").unwrap();
    assert!(is_same(&one, &folder.log()));
    fs::hard_link(&one, folder.0.join("other")).unwrap();
    assert!(is_same(&one, &folder.0.join("other")));
    assert_eq!(fs::read(&one).unwrap(), b"any");
}

/// A new shelf takes no place that is taken.
#[test]
fn nothing_is_replaced() {
    let folder = Folder::new("replaced");
    let made = |page: &Path, log: &Path| Shelf::create(page, log, 4).err();
    drop(Shelf::create(folder.page(), folder.log(), 4).expect("a new shelf"));
    let files = || [folder.page(), folder.log()].map(|path| fs::read(path).unwrap());
    let before = files();
    let [page, log] = ["other.page", "other.log"].map(|name| folder.0.join(name));
    assert!(matches!(
        made(&folder.page(), &log),
        Some(Trouble::Exists(Name::Page))
    ));
    assert!(matches!(
        made(&page, &folder.log()),
        Some(Trouble::Exists(Name::Log))
    ));
    assert!(matches!(
        made(&folder.page(), &folder.log()),
        Some(Trouble::Exists(Name::Page))
    ));
    assert_eq!(files(), before);
    assert!(!page.exists() && !log.exists());
    assert_eq!(fs::read_dir(&folder.0).unwrap().count(), 2);
}

/// A log that got shorter under an open shelf: no root goes out.
#[test]
fn a_log_cut_short_under_an_open_shelf() {
    let folder = Folder::new("shorter");
    let mut shelf = Shelf::create(folder.page(), folder.log(), 4).expect("a new shelf");
    shelf.stock(&[1; 16]).expect("room");
    let log = fs::read(folder.log()).unwrap();
    fs::write(folder.log(), &log[..log.len() - 51]).unwrap();
    assert!(matches!(shelf.draw(), Err(Trouble::File(Name::Log, _))));
    assert!(matches!(shelf.draw(), Err(Trouble::Stopped)));
}
