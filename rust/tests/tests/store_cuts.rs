//! A shelf in files, cut off at every step, opened again and used on, with old
//! pages put back. No root goes out twice, and a cut loses one root at most.

use std::collections::HashSet;
use tests::cut_disk::{CutDisk, Plan};
use tests::random::Random;
use wivulameno::store::{Name, Shelf, Standing, Trouble};
use wivulameno::Refusal;

#[derive(Clone, Copy, Debug, PartialEq)]
enum Event {
    Stock,
    Draw,
}

use Event::{Draw, Stock};

const SLOTS: u16 = 3;
const FIRST: [Event; 8] = [Stock, Stock, Draw, Stock, Draw, Stock, Draw, Stock];
const THEN: [Event; 3] = [Draw, Stock, Draw];

/// More steps than any of these histories has.
const MOST_STEPS: usize = 1000;

/// What the host knows, which no cut takes from it.
#[derive(Clone, Default)]
struct Host {
    /// The roots that a draw gave out.
    given: Vec<[u8; 16]>,
    /// The stockings that were accepted, and all that were tried.
    stocked: usize,
    tried: u8,
    cuts: usize,
}

impl Host {
    /// The shelf on this disk; a new one if it has none.
    fn shelf(disk: &CutDisk) -> Result<Shelf<CutDisk>, Trouble> {
        match Shelf::open_in(disk.clone()) {
            Err(Trouble::Missing(Name::Page | Name::Log)) => Shelf::create_in(disk.clone(), SLOTS),
            opened => opened,
        }
    }

    fn event(&mut self, shelf: &mut Shelf<CutDisk>, event: Event) -> Result<(), Trouble> {
        match event {
            Stock => {
                self.tried += 1;
                shelf.stock(&[self.tried; 16])?;
                self.stocked += 1;
            }
            Draw => self.given.push(shelf.draw()?),
        }
        Ok(())
    }

    fn play(&mut self, disk: &CutDisk, events: &[Event]) -> Result<(), Trouble> {
        let mut shelf = Host::shelf(disk)?;
        for &event in events {
            match self.event(&mut shelf, event) {
                Err(Trouble::Refused(Refusal::Empty | Refusal::Full)) => {}
                done => done?,
            }
        }
        Ok(())
    }

    /// Draws all that is left, then stocks and draws once more.
    fn finish(&mut self, disk: &CutDisk) {
        let mut shelf = Host::shelf(disk).expect("a shelf that opens");
        loop {
            match self.event(&mut shelf, Draw) {
                Ok(()) => {}
                Err(Trouble::Refused(Refusal::Empty)) => break,
                Err(trouble) => panic!("{trouble}"),
            }
        }
        self.event(&mut shelf, Stock).expect("room");
        self.event(&mut shelf, Draw).expect("a root");
        self.check();
    }

    fn no_root_twice(&self) {
        let given: HashSet<_> = self.given.iter().collect();
        assert_eq!(given.len(), self.given.len(), "twice: {:02x?}", self.given);
    }

    fn check(&self) {
        self.no_root_twice();
        assert!(self.given.len() + self.cuts >= self.stocked, "roots lost");
        assert!(self.given.len() <= usize::from(self.tried));
    }
}

/// The disks and what the host knows, for each cut and each state it leaves.
fn cuts_of(disk: &CutDisk, host: &Host, events: &[Event]) -> Vec<(CutDisk, Host)> {
    let mut found = vec![];
    for made in 0.. {
        assert!(made < MOST_STEPS, "it never ends well");
        let (disk, mut host) = (disk.copy(Plan::CutAfter(made)), host.clone());
        match host.play(&disk, events) {
            Ok(()) => break,
            Err(trouble) => assert!(trouble.refusal().is_none(), "{trouble}"),
        }
        host.cuts += 1;
        found.extend(
            disk.after_cut()
                .into_iter()
                .map(|disk| (disk, host.clone())),
        );
    }
    found
}

/// Every page that the disk ever had is put back. What it would give out has not
/// gone out.
fn put_back_each_page(disk: &CutDisk, host: &Host) {
    for page in disk.pages() {
        let disk = disk.copy(Plan::AllGoWell);
        disk.put_back(Name::Page, &page);
        let mut shelf = Shelf::open_in(disk).expect("a shelf that opens");
        match shelf.draw() {
            Ok(root) => assert!(!host.given.contains(&root), "{root:02x?} goes out twice"),
            Err(Trouble::Refused(Refusal::Empty)) => {}
            Err(Trouble::Page(Standing::Behind { .. })) => {}
            Err(trouble) => panic!("{trouble}"),
        }
    }
}

#[test]
fn without_a_cut() {
    let (disk, mut host) = (CutDisk::new(Plan::AllGoWell), Host::default());
    host.play(&disk, &FIRST).expect("no trouble");
    host.finish(&disk);
    assert_eq!((host.given.len(), host.stocked), (6, 6));
    put_back_each_page(&disk, &host);
}

#[test]
fn one_cut_anywhere() {
    let cuts = cuts_of(&CutDisk::new(Plan::AllGoWell), &Host::default(), &FIRST);
    assert!(cuts.len() > 300, "{} states", cuts.len());
    for (disk, mut host) in cuts {
        host.finish(&disk);
        put_back_each_page(&disk, &host);
    }
}

#[test]
fn two_cuts_anywhere() {
    let firsts = cuts_of(&CutDisk::new(Plan::AllGoWell), &Host::default(), &FIRST);
    for (disk, host) in firsts {
        let seconds = cuts_of(&disk, &host, &THEN);
        assert!(seconds.len() > 50, "{} states", seconds.len());
        for (disk, mut host) in seconds {
            host.finish(&disk);
        }
    }
}

/// An error that the process survives: the shelf is stopped until it is opened
/// again, and then goes on.
#[test]
fn one_error_anywhere() {
    for step in 0.. {
        assert!(step < MOST_STEPS, "it never ends well");
        let (disk, mut host) = (CutDisk::new(Plan::FailAt(step)), Host::default());
        let trouble = host.play(&disk, &FIRST);
        if trouble.is_ok() {
            assert!(step > 50, "{step} steps");
            break;
        }
        host.cuts += 1;
        host.finish(&disk.copy(Plan::AllGoWell));
    }
}

/// A file that cannot be read is told as such, also after a cut. No root is lost
/// by it, and the shelf goes on when it is opened again.
#[test]
fn one_unread_file_anywhere() {
    let new = CutDisk::new(Plan::AllGoWell);
    let mut cuts = cuts_of(&new, &Host::default(), &FIRST);
    cuts.push((new, Host::default()));
    for (disk, host) in cuts {
        for read in 0.. {
            assert!(read < MOST_STEPS, "it never ends well");
            let (disk, mut host) = (disk.copy(Plan::FailRead(read)), host.clone());
            match host.play(&disk, &THEN) {
                Err(trouble) => assert!(matches!(trouble, Trouble::File(..)), "{trouble}"),
                Ok(()) => {
                    assert!(read >= 6, "{read} readings");
                    break;
                }
            }
            host.finish(&disk.copy(Plan::AllGoWell));
        }
    }
}

#[test]
fn a_failed_write_stops_the_shelf() {
    let disk = CutDisk::new(Plan::AllGoWell);
    let mut host = Host::default();
    host.play(&disk, &[Stock, Stock]).expect("no trouble");
    let mut failed = 0;
    for step in 0..MOST_STEPS {
        let disk = disk.copy(Plan::FailAt(step));
        let Ok(mut shelf) = Shelf::open_in(disk.clone()) else {
            continue;
        };
        match shelf.draw() {
            Ok(_) => break,
            Err(trouble) => assert!(matches!(trouble, Trouble::File(..)), "{trouble}"),
        }
        failed += 1;
        assert!(matches!(shelf.draw(), Err(Trouble::Stopped)), "{step}");
        assert!(matches!(shelf.stock(&[9; 16]), Err(Trouble::Stopped)));
        assert!(matches!(shelf.status(), Err(Trouble::Stopped)));
        drop(shelf);
        host.clone().finish_after_error(&disk);
    }
    assert_eq!(failed, 16, "steps of a draw");
}

impl Host {
    fn finish_after_error(mut self, disk: &CutDisk) {
        self.cuts += 1;
        self.finish(&disk.copy(Plan::AllGoWell));
    }
}

/// The incident: the cache keeps the page from before a draw.
#[test]
fn an_old_page_put_back_is_refused() {
    let (disk, mut host) = (CutDisk::new(Plan::AllGoWell), Host::default());
    host.play(&disk, &[Stock, Stock]).expect("no trouble");
    let old = disk.bytes(Name::Page).expect("a page");
    host.play(&disk, &[Draw]).expect("no trouble");
    let present = disk.bytes(Name::Page).expect("a page");

    disk.put_back(Name::Page, &old);
    let mut shelf = Shelf::open_in(disk.clone()).expect("a shelf that opens");
    assert_refused(shelf.draw(), Refusal::AnotherCount);
    let status = shelf.status().expect("a sound page");
    assert_eq!((status.draws, status.count, status.ready), (0, 1, 2));
    assert_eq!(status.standing, Standing::Behind { draws: 1 });
    assert_refused(status.trouble().map_or(Ok(()), Err), Refusal::AnotherCount);
    assert_eq!(disk.bytes(Name::Page), Some(old.clone()));

    // Put back while the shelf is open: no difference.
    disk.put_back(Name::Page, &present);
    assert_eq!(shelf.draw().expect("a root"), [1; 16]);
    disk.put_back(Name::Page, &present);
    assert_refused(shelf.draw(), Refusal::AnotherCount);
}

fn assert_refused<T>(answer: Result<T, Trouble>, refusal: Refusal) {
    let trouble = answer.err().expect("a refusal");
    assert_eq!(trouble.refusal(), Some(refusal), "{trouble}");
}

/// A new page under the log's count is the way out when the page is gone. The
/// page from before is refused from then on.
#[test]
fn a_new_page_goes_on_from_the_log() {
    let (disk, mut host) = (CutDisk::new(Plan::AllGoWell), Host::default());
    host.play(&disk, &[Stock, Stock, Draw]).expect("no trouble");
    for made in [Shelf::create_in, Shelf::renew_in] {
        let answer = made(disk.clone(), SLOTS).err();
        assert!(matches!(answer, Some(Trouble::Exists(Name::Page))));
    }
    let old = disk.bytes(Name::Page).expect("a page");
    let mut files = disk.clone();
    wivulameno::store::Files::remove(&mut files, Name::Page).expect("no trouble");
    let answer = Shelf::create_in(disk.clone(), SLOTS).err();
    assert!(
        matches!(answer, Some(Trouble::Exists(Name::Log))),
        "{answer:?}"
    );
    let mut shelf = Shelf::renew_in(disk.clone(), SLOTS).expect("a new page");
    let status = shelf.status().expect("a sound page");
    assert_eq!((status.draws, status.count, status.ready), (1, 1, 0));
    disk.put_back(Name::Page, &old);
    let answer = shelf.draw().err();
    assert!(matches!(answer, Some(Trouble::Page(Standing::Replaced))));
}

#[test]
fn a_refusal_changes_no_file() {
    let (disk, mut host) = (CutDisk::new(Plan::AllGoWell), Host::default());
    host.play(&disk, &[Stock]).expect("no trouble");
    let mut shelf = Shelf::open_in(disk.clone()).expect("a shelf that opens");
    let steps = disk.steps();
    assert_refused(shelf.stock(&[1; 15]), Refusal::Length);
    assert_refused(
        Shelf::create_in(CutDisk::new(Plan::AllGoWell), 0),
        Refusal::Unsound,
    );
    assert_refused(
        Shelf::create_in(CutDisk::new(Plan::AllGoWell), 256),
        Refusal::Unsound,
    );
    assert_eq!(disk.steps(), steps);
    shelf.draw().expect("a root");
    let steps = disk.steps();
    assert_refused(shelf.draw(), Refusal::Empty);
    assert_eq!(disk.steps(), steps);
}

/// A line counts from its full stop on; other damage is told.
#[test]
fn torn_and_damaged_logs() {
    let (disk, mut host) = (CutDisk::new(Plan::AllGoWell), Host::default());
    host.play(&disk, &[Stock, Draw]).expect("no trouble");
    let log = disk.bytes(Name::Log).expect("a log");
    let starts = [
        "wivulameno log 1 ",
        "page  0000000000 ",
        "stock 0000000000 ",
        "draw  0000000001 ",
    ];
    let text = String::from_utf8(log.clone()).expect("text");
    assert_eq!(text.lines().count(), starts.len());
    for (line, start) in text.split_inclusive('\n').zip(starts) {
        assert!(line.starts_with(start), "{line:?}");
        let end = if start.starts_with("wiv") {
            "\n"
        } else {
            ".\n"
        };
        assert!(
            line.ends_with(end) && line.len() == 17 + 32 + end.len(),
            "{line:?}"
        );
    }
    let end = 50 + 3 * 51;
    assert_eq!(log.len(), end);
    let count_with = |bytes: &[u8]| {
        let changed = disk.copy(Plan::AllGoWell);
        changed.put_back(Name::Log, bytes);
        count_of(&changed)
    };
    for len in 50..=end {
        let expected = u64::from(len >= end - 1);
        assert_eq!(count_with(&log[..len]), Ok(expected), "{len}");
        let full_stop = len.max(end - 1);
        let zeros = [&log[..end - 2], &vec![0; full_stop - (end - 2)]].concat();
        assert_eq!(count_with(&zeros), Ok(1), "{len}");
    }
    let is_text = |place: usize| place >= 50 && !(17..49).contains(&((place - 50) % 51));
    for place in (0..end).filter(|place| is_text(*place)) {
        let mut bytes = log.clone();
        bytes[place] ^= 0x80;
        assert_eq!(
            count_with(&bytes),
            Err((place as u64 - 50) / 51 + 2),
            "{place}"
        );
    }
}

/// What is no log is never a log with the count 0.
#[test]
fn a_file_that_is_no_log() {
    let (disk, mut host) = (CutDisk::new(Plan::AllGoWell), Host::default());
    host.play(&disk, &[Stock, Draw]).expect("no trouble");
    let (page, log) = (disk.bytes(Name::Page), disk.bytes(Name::Log));
    let (page, log) = (page.expect("a page"), log.expect("a log"));
    let mut wrong = vec![
        page,
        vec![0; 50],
        vec![0; 4096],
        b"draw 0000000001 ".to_vec(),
    ];
    wrong.extend((0..50).map(|len| log[..len].to_vec()));
    for place in 0..50 {
        let mut bytes = log.clone();
        bytes[place] ^= 0x80;
        wrong.push(bytes);
    }
    for bytes in wrong {
        disk.put_back(Name::Log, &bytes);
        let answers = [
            Shelf::open_in(disk.clone()).err(),
            Shelf::renew_in(disk.clone(), SLOTS).err(),
            Shelf::look_in(disk.clone()).err(),
            wivulameno::Log::open_in(disk.clone()).err(),
        ];
        for answer in answers {
            assert!(matches!(answer, Some(Trouble::NotALog)), "{answer:?}");
        }
        let mut files = disk.clone();
        wivulameno::store::Files::remove(&mut files, Name::Page).expect("no trouble");
        let answer = Shelf::create_in(disk.clone(), SLOTS).err();
        assert!(matches!(answer, Some(Trouble::NotALog)), "{answer:?}");
        disk.put_back(Name::Page, b"any");
        assert_eq!(disk.bytes(Name::Log), Some(bytes));
    }
}

/// The log's count, or the damaged line.
fn count_of(disk: &CutDisk) -> Result<u64, u64> {
    match wivulameno::Log::open_in(disk.clone()) {
        Ok(log) => Ok(log.count()),
        Err(Trouble::Damaged { line }) => Err(line),
        Err(trouble) => panic!("{trouble}"),
    }
}

/// A page whose draw did not count must not get on disk: the sequence in the
/// documentation of `store`.
#[test]
fn a_page_from_before_a_stocking_is_put_back() {
    let (disk, mut host) = (CutDisk::new(Plan::AllGoWell), Host::default());
    host.play(&disk, &[Stock]).expect("no trouble");
    let before = disk.bytes(Name::Page).expect("a page");
    host.play(&disk, &[Stock]).expect("no trouble");
    let mut given = 0;
    for (disk, mut host) in cuts_of(&disk, &host, &[Draw]) {
        disk.put_back(Name::Page, &before);
        match host.play(&disk, &[Draw]) {
            Ok(()) => given += host.given.len(),
            Err(trouble) => assert_eq!(trouble.refusal(), Some(Refusal::AnotherCount), "{trouble}"),
        }
        host.no_root_twice();
        put_back_each_page(&disk, &host);
    }
    assert!(given > 3, "{given} given");
}

/// Stockings, draws, cuts, and any page that the disk ever had put back in place
/// or beside, in any order.
#[test]
fn any_history() {
    let mut random = Random::new(0x510);
    let (mut given, mut refused) = (0, 0);
    for _ in 0..2500 {
        let (mut disk, mut host) = (CutDisk::new(Plan::AllGoWell), Host::default());
        for _ in 0..12 {
            let made = random.below(60);
            disk = disk.copy(Plan::CutAfter(made));
            let events: Vec<Event> = (0..3).map(|_| random.pick(&[Stock, Draw])).collect();
            let trouble = host.play(&disk, &events).err();
            let refusal = trouble.and_then(|trouble| trouble.refusal());
            refused += usize::from(refusal == Some(Refusal::AnotherCount));
            let mut states = disk.after_cut();
            disk = states.swap_remove(random.below(states.len()));
            let pages = disk.pages();
            if !pages.is_empty() && random.once_in(2) {
                let name = random.pick(&[Name::Page, Name::Page, Name::NextPage]);
                let any = random.below(pages.len());
                disk.put_back(name, &pages[random.pick(&[any, pages.len() - 1])]);
            }
        }
        host.no_root_twice();
        given += host.given.len();
        put_back_each_page(&disk, &host);
    }
    assert!(
        given > 5000 && refused > 1000,
        "{given} given, {refused} refused"
    );
}
