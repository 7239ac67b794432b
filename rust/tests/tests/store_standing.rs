//! How a page stands to the log: each way to a second proof from one root that
//! begins with an old page, a log that was set back or another shelf's file ends
//! in a refusal.

use tests::cut_disk::{CutDisk, Plan};
use wivulameno::store::{Name, Shelf, Standing, Trouble};
use wivulameno::Refusal;

const SLOTS: u16 = 20;

/// A disk with a shelf of so many slots.
fn new_disk(slots: u16) -> CutDisk {
    let disk = CutDisk::new(Plan::AllGoWell);
    Shelf::create_in(disk.clone(), slots).expect("a new shelf");
    disk
}

fn open(disk: &CutDisk) -> Shelf<CutDisk> {
    Shelf::open_in(disk.clone()).expect("a shelf that opens")
}

fn stock(disk: &CutDisk, root: u8) {
    open(disk).stock(&[root; 16]).expect("room");
}

fn draw(disk: &CutDisk) -> u8 {
    open(disk).draw().expect("a root")[0]
}

fn page(disk: &CutDisk) -> Vec<u8> {
    disk.bytes(Name::Page).expect("a page")
}

fn log(disk: &CutDisk) -> Vec<u8> {
    disk.bytes(Name::Log).expect("a log")
}

fn standing(disk: &CutDisk) -> Standing {
    Shelf::look_in(disk.clone()).expect("a status").standing
}

/// Stocking and drawing are refused with this standing.
fn assert_stands(disk: &CutDisk, expected: Standing) {
    for answer in [open(disk).draw().err(), open(disk).stock(&[99; 16]).err()] {
        match answer {
            Some(Trouble::Page(found)) => assert_eq!(found, expected),
            other => panic!("{other:?}, not {expected:?}"),
        }
    }
}

/// The log without its last lines.
fn shortened(log: &[u8], lines: usize) -> Vec<u8> {
    log[..log.len() - 51 * lines].to_vec()
}

/// A shelf of three draws, and every page that it has had, the first one first.
fn used() -> (CutDisk, Vec<Vec<u8>>) {
    let disk = new_disk(SLOTS);
    let mut pages = vec![page(&disk)];
    for root in 1..=5 {
        stock(&disk, root);
        pages.push(page(&disk));
    }
    for root in [5, 4, 3] {
        assert_eq!(draw(&disk), root);
        pages.push(page(&disk));
    }
    (disk, pages)
}

/// The log is cut short, somebody draws, and then an old page is put back: the
/// root of the past does not go out, whatever page it is.
#[test]
fn a_log_that_was_set_back() {
    let (disk, pages) = used();
    let (present, whole) = (page(&disk), log(&disk));
    for lines in 1..=3 {
        let disk = disk.copy(Plan::AllGoWell);
        disk.put_back(Name::Log, &shortened(&whole, lines));
        let ahead = Standing::Ahead {
            draws: lines as u64,
        };
        assert_eq!(standing(&disk), ahead);
        let first = match lines {
            2 => open(&disk).stock(&[99; 16]).err(),
            _ => open(&disk).draw().err(),
        };
        let first = first.expect("a refusal");
        assert!(matches!(first, Trouble::Page(found) if found == ahead));
        assert_eq!(first.refusal(), Some(Refusal::AnotherCount));
        assert_eq!(page(&disk), present, "a refusal writes no page");
        for old in &pages {
            disk.put_back(Name::Page, old);
            assert_stands(&disk, Standing::SetBack);
            assert_eq!(standing(&disk), Standing::SetBack);
        }
        let mut files = disk.clone();
        wivulameno::store::Files::remove(&mut files, Name::Page).expect("no trouble");
        let renewed = Shelf::renew_in(disk.clone(), SLOTS).err();
        assert!(matches!(renewed, Some(Trouble::Page(Standing::SetBack))));
    }
}

/// Also where the last root is gone from the page that is ahead.
#[test]
fn a_log_that_was_set_back_under_an_empty_page() {
    let disk = new_disk(SLOTS);
    stock(&disk, 1);
    let old = page(&disk);
    assert_eq!(draw(&disk), 1);
    disk.put_back(Name::Log, &shortened(&log(&disk), 1));
    assert_eq!(standing(&disk), Standing::Ahead { draws: 1 });
    assert!(open(&disk).draw().is_err());
    disk.put_back(Name::Page, &old);
    assert_stands(&disk, Standing::SetBack);
}

/// The mark is on disk before the refusal is told, wherever that is cut off; a
/// cut before it leaves the page ahead.
#[test]
fn a_cut_while_the_mark_is_written() {
    let (disk, pages) = used();
    disk.put_back(Name::Log, &shortened(&log(&disk), 1));
    let mut marked = 0;
    for made in 0..1000 {
        let cut = disk.copy(Plan::CutAfter(made));
        let answer = Shelf::open_in(cut.clone()).and_then(|mut shelf| shelf.draw());
        for after in cut.after_cut() {
            let found = standing(&after);
            let told = matches!(answer, Err(Trouble::Page(_)));
            let ahead = Standing::Ahead { draws: 1 };
            assert!(found == Standing::SetBack || !told && found == ahead);
            marked += usize::from(found == Standing::SetBack);
            assert!(open(&after).draw().is_err());
            after.put_back(Name::Page, &pages[5]);
            assert_stands(&after, Standing::SetBack);
        }
        if matches!(answer, Err(Trouble::Page(_))) {
            break;
        }
    }
    assert!(marked > 3);
}

#[test]
fn each_page_of_the_past() {
    let (disk, pages) = used();
    let expected = [
        Standing::Behind { draws: 3 },
        Standing::Behind { draws: 3 },
        Standing::Behind { draws: 3 },
        Standing::Behind { draws: 3 },
        Standing::Behind { draws: 3 },
        Standing::Behind { draws: 3 },
        Standing::Behind { draws: 2 },
        Standing::Behind { draws: 1 },
        Standing::Present,
    ];
    let before = log(&disk);
    for (old, expected) in pages.iter().zip(expected) {
        disk.put_back(Name::Page, old);
        assert_eq!(standing(&disk), expected);
        if expected != Standing::Present {
            assert_stands(&disk, expected);
            assert_eq!(
                open(&disk).draw().unwrap_err().refusal(),
                Some(Refusal::AnotherCount)
            );
        }
        assert_eq!((page(&disk), log(&disk)), (old.clone(), before.clone()));
    }
    assert_eq!(draw(&disk), 2);
}

/// A page of the same draws from before a stocking is drawn from.
#[test]
fn a_page_from_before_a_stocking() {
    let disk = new_disk(SLOTS);
    stock(&disk, 1);
    let one = page(&disk);
    stock(&disk, 2);
    let two = page(&disk);
    stock(&disk, 3);
    disk.put_back(Name::Page, &two);
    assert_eq!(standing(&disk), Standing::Earlier { stockings: 1 });
    disk.put_back(Name::Page, &one);
    assert_eq!(standing(&disk), Standing::Earlier { stockings: 2 });
    let status = Shelf::look_in(disk.clone()).expect("a status");
    assert!(status.trouble().is_none());
    stock(&disk, 4);
    assert_eq!(standing(&disk), Standing::Present);
    disk.put_back(Name::Page, &one);
    assert_eq!(standing(&disk), Standing::Earlier { stockings: 3 });
    assert_eq!(draw(&disk), 1);
    disk.put_back(Name::Page, &two);
    assert_stands(&disk, Standing::Behind { draws: 1 });
}

/// Page and log of two shelves, whether the counts agree or not: refused, and
/// nothing is written, so that each goes on with its own.
#[test]
fn another_shelfs_log() {
    for (draws_of_a, draws_of_b) in [(0, 0), (1, 1), (3, 1), (1, 3)] {
        let [a, b] = [draws_of_a, draws_of_b].map(|draws| {
            let disk = new_disk(SLOTS);
            (1..=4).for_each(|root| stock(&disk, root));
            (0..draws).for_each(|_| assert!(draw(&disk) > 0));
            disk
        });
        let mixed = a.copy(Plan::AllGoWell);
        mixed.put_back(Name::Log, &log(&b));
        assert_eq!(standing(&mixed), Standing::Foreign);
        assert_stands(&mixed, Standing::Foreign);
        assert_eq!(open(&mixed).draw().unwrap_err().refusal(), None);
        assert_eq!((page(&mixed), log(&mixed)), (page(&a), log(&b)));
        assert_eq!(draw(&a), 4 - draws_of_a);
        assert_eq!(draw(&b), 4 - draws_of_b);
    }
}

/// A sound page that the log has never seen.
#[test]
fn a_page_changed_by_other_hands() {
    let (disk, _) = used();
    let (present, before) = (page(&disk), log(&disk));
    let root = (12..present.len()).find(|&place| present[place..].starts_with(&[2; 16]));
    let mut changed = present.clone();
    changed[root.expect("a root")] ^= 1;
    disk.put_back(Name::Page, &changed);
    assert_eq!(standing(&disk), Standing::Unknown);
    assert_stands(&disk, Standing::Unknown);
    assert_eq!((page(&disk), log(&disk)), (changed, before));
    let mut unsound = present.clone();
    unsound.pop();
    disk.put_back(Name::Page, &unsound);
    assert_eq!(
        open(&disk).draw().unwrap_err().refusal(),
        Some(Refusal::Unsound)
    );
    disk.put_back(Name::Page, &present);
    assert_eq!(draw(&disk), 2);
}

/// Looking makes no step on the disk, whatever a cut has left, and tells what
/// opening will find.
#[test]
fn looking_changes_nothing() {
    let disk = new_disk(SLOTS);
    stock(&disk, 1);
    let [mut finished, mut unfinished] = [0; 2];
    for made in 0..20 {
        let cut = disk.copy(Plan::CutAfter(made));
        let _ = Shelf::open_in(cut.clone()).and_then(|mut shelf| shelf.draw());
        for after in cut.after_cut() {
            let (files, steps) = ((page(&after), log(&after)), after.steps());
            let seen = Shelf::look_in(after.clone()).expect("a status");
            assert_eq!((page(&after), log(&after)), files);
            assert_eq!(after.steps(), steps);
            let opened = open(&after).status().expect("a status");
            assert!(!opened.unfinished);
            match seen.unfinished {
                true => unfinished += 1,
                false => finished += 1,
            }
            assert_eq!(
                seen,
                wivulameno::store::Status {
                    unfinished: seen.unfinished,
                    ..opened
                }
            );
        }
    }
    assert!(finished > 3 && unfinished > 3, "{finished}, {unfinished}");
}

/// What a draw would end with, by the page's own numbers: no root ready comes before a
/// count that can grow no more.
#[test]
fn what_a_draw_would_end_with() {
    let trouble = |ready, draws, standing| {
        let status = wivulameno::store::Status {
            slots: 3,
            ready,
            draws,
            count: draws.into(),
            standing,
            unfinished: false,
        };
        status.trouble().map(|trouble| trouble.refusal())
    };
    let (last, behind) = (u32::MAX, Standing::Behind { draws: 1 });
    assert_eq!(trouble(1, last - 1, Standing::Present), None);
    assert_eq!(
        trouble(1, last, Standing::Present),
        Some(Some(Refusal::Spent))
    );
    assert_eq!(
        trouble(0, last, Standing::Present),
        Some(Some(Refusal::Empty))
    );
    assert_eq!(trouble(0, last, behind), Some(Some(Refusal::AnotherCount)));
    assert_eq!(trouble(1, last, Standing::Unknown), Some(None));
}

/// Two shelves cannot share a log.
#[test]
fn a_second_page_under_a_log() {
    let disk = new_disk(SLOTS);
    let (first, before) = (page(&disk), log(&disk));
    let mut files = disk.clone();
    wivulameno::store::Files::remove(&mut files, Name::Page).expect("no trouble");
    let answer = Shelf::create_in(disk.clone(), SLOTS).err();
    assert!(matches!(answer, Some(Trouble::Exists(Name::Log))));
    assert_eq!(log(&disk), before);
    Shelf::renew_in(disk.clone(), 4).expect("a new page");
    stock(&disk, 1);
    disk.put_back(Name::Page, &first);
    assert_stands(&disk, Standing::Replaced);
}
