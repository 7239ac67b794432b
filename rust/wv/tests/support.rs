//! What a support engineer asks: how a shelf stands, what is wrong, who has it.
#![deny(unused_must_use)]

mod common;

use common::{ended, setpriv, words, Ended, Folder};
use std::fs;
use std::thread;
use std::time::{Duration, Instant};
use wivulameno::store::Trouble;
use wivulameno::Shelf;

const STATUS: &str = "shelf status page --log log";
const STOCK: &str = "shelf stock page --log log --fresh 1";
const PROVE: &str =
    "prove covers16.circuit row --shelf page --log log --message text:a --out proof";

/// Proves, and gives the page from before.
fn proved(folder: &Folder) -> Vec<u8> {
    let before = folder.read("page");
    let ended = folder.wv(PROVE);
    assert_eq!((ended.status, ended.err.as_str()), (0, ""));
    before
}

/// A log line: what happened, the draws, a digest, and two marks.
const LINE: usize = 51;

fn without_lines(log: &[u8], lines: usize) -> Vec<u8> {
    log[..log.len() - LINE * lines].to_vec()
}

/// Status, stocking and proving say this; no file changes by the status.
fn stands(folder: &Folder, lines: &str, is_it: impl Fn(&Ended)) {
    let before = folder.files();
    let status = folder.wv(STATUS);
    is_it(&status);
    assert_eq!(status.text(), lines);
    assert_eq!(folder.files(), before);
}

#[test]
fn an_old_page() {
    let folder = Folder::with_shelf("support_old");
    let old = proved(&folder);
    proved(&folder);
    folder.write("page", &old);
    let before = folder.files();
    let told = "page is old, 2 draws behind: put the present page back; if there is none, first \
                move this one away, then begin a new one with `wv shelf new page --log log \
                --slots 255 --lost`, and stock it";
    let lines = "slots 3\nready 3\ndraws 0\nlog 2\npage old: 2 draws behind\n";
    stands(&folder, lines, |ended| ended.refused(15, told));
    folder.wv(PROVE).refused(15, told);
    let stocked = folder.wv(STOCK);
    stocked.refused(15, told);
    assert_eq!(stocked.text(), "stocked 0\n");
    assert_eq!(folder.files(), before);
    // What is told, in its order.
    let command = told.split('`').nth(1).expect("a command");
    folder
        .sh(command)
        .mistaken("a page is not replaced: go on with it, or move it away first");
    fs::rename(folder.path("page"), folder.path("old")).expect("it is moved");
    folder.sh(command).says("");
    folder.wv(STOCK).says("stocked 1\n");
    proved(&folder);
}

/// Before a shelf is made, and when its page is lost.
#[test]
fn no_shelf() {
    let folder = Folder::with_circuit("support_none");
    let told = "log: the log is not there, nor is the shelf page page: name those of a shelf, or \
                make a new one with `wv shelf new page --log log --slots 255`, and stock it";
    for line in [STATUS, STOCK, PROVE] {
        folder.wv(line).mistaken(told);
    }
    assert!(!folder.has("page") && !folder.has("log"));
    let command = told.split('`').nth(1).expect("a command");
    folder.sh(command).says("");
    folder.wv(STOCK).says("stocked 1\n");
    fs::remove_file(folder.path("page")).expect("it is there");
    let told = "page: the shelf page is not there: put it back, or if it is lost begin a new one \
                with `wv shelf new page --log log --slots 255 --lost`, and stock it";
    for line in [STATUS, STOCK, PROVE] {
        folder.wv(line).mistaken(told);
    }
    folder
        .sh(told.split('`').nth(1).expect("a command"))
        .says("");
    folder.wv(STOCK).says("stocked 1\n");
    proved(&folder);
    // A page without its log is another matter.
    fs::remove_file(folder.path("log")).expect("it is there");
    folder.wv(PROVE).mistaken(
        "log: the log is not there: name the log of this page; if it is lost, no page of this \
         shelf can be trusted",
    );
}

#[test]
fn a_page_from_before_stockings() {
    let folder = Folder::with_circuit("support_earlier");
    folder.wv("shelf new page --log log --slots 5").says("");
    folder.wv(STOCK).says("stocked 1\n");
    let one = folder.read("page");
    folder.wv(STOCK).says("stocked 1\n");
    let two = folder.read("page");
    folder.wv(STOCK).says("stocked 1\n");
    folder.write("page", &one);
    let lines = "slots 5\nready 1\ndraws 0\nlog 0\npage from before 2 stockings\n";
    stands(&folder, lines, |ended| {
        assert_eq!((ended.status, ended.err.as_str()), (0, ""));
    });
    let note = "note: page: 2 later stockings are not on this page";
    let stocked = folder.wv(STOCK);
    stocked.tells(note);
    assert_eq!(stocked.text(), "stocked 1\n");
    folder.wv(STOCK).says("stocked 1\n");
    folder.write("page", &two);
    // The third stocking, and the two from the older page.
    folder
        .wv(PROVE)
        .tells("note: page: 3 later stockings are not on this page");
    assert_eq!(folder.draws(), 1);
}

#[test]
fn one_stocking_is_missing() {
    let folder = Folder::with_circuit("support_one");
    folder.wv("shelf new page --log log --slots 5").says("");
    let none = folder.read("page");
    folder.wv(STOCK).says("stocked 1\n");
    folder.write("page", &none);
    folder
        .wv(STATUS)
        .says("slots 5\nready 0\ndraws 0\nlog 0\npage from before 1 stocking\nempty: stock more\n");
    folder
        .wv(STOCK)
        .tells("note: page: 1 later stocking is not on this page");
}

/// A status finds it and writes nothing; the first call that meets it notes it in
/// the log, and from then on no page is used.
#[test]
fn a_log_that_was_set_back() {
    let folder = Folder::with_shelf("support_set_back");
    let old = proved(&folder);
    proved(&folder);
    folder.write("log", &without_lines(&folder.read("log"), 2));
    let todo = "no page of this shelf can be trusted: delete all its pages, and make a new shelf \
                with a new log and new roots";
    let ahead = format!("log was set back, 2 draws behind page: {todo}");
    let lines = "slots 3\nready 1\ndraws 2\nlog 0\npage ahead by 2 draws: the log was set back\n";
    stands(&folder, lines, |ended| ended.refused(15, &ahead));
    folder.wv(PROVE).refused(15, &ahead);
    let set_back = format!("page: log was set back: {todo}");
    folder.wv(STOCK).refused(15, &set_back);
    folder.write("page", &old);
    folder.wv(PROVE).refused(15, &set_back);
    let lines =
        "slots 3\nready 3\ndraws 0\nlog 0\npage unusable: the log says that it was set back\n";
    stands(&folder, lines, |ended| ended.refused(15, &set_back));
    fs::remove_file(folder.path("page")).unwrap();
    folder
        .wv("shelf new page --log log --slots 3 --lost")
        .refused(15, &set_back);
}

#[test]
fn another_shelfs_log() {
    let folder = Folder::with_circuit("support_foreign");
    for (page, log) in [("page", "own"), ("other", "log")] {
        let line = format!("shelf new {page} --log {log} --slots 20");
        folder.wv(&line).says("");
    }
    let told = "page and log belong to different shelves";
    let lines = "slots 20\nready 0\ndraws 0\nlog 0\npage foreign: page and log belong to different shelves\n";
    stands(&folder, lines, |ended| ended.unwanted(told));
    folder.wv(PROVE).unwanted(told);
    folder.wv(STOCK).unwanted(told);
}

#[test]
fn a_page_changed_by_other_hands() {
    let folder = Folder::with_shelf("support_unknown");
    let mut page = folder.read("page");
    // Slots of 18 bytes begin at 12: two for the next slot, then the root.
    page[12 + 2] ^= 1;
    folder.write("page", &page);
    let told = "page is damaged or was changed by other hands: put a good page back";
    let lines =
        "slots 3\nready 3\ndraws 0\nlog 0\npage unknown: the log has never seen this page\n";
    stands(&folder, lines, |ended| ended.unwanted(told));
    folder.wv(PROVE).unwanted(told);
    folder.write("page", &page[1..]);
    let told = "page: put the present page back; if there is none, first move this one away, \
                then begin a new one with `wv shelf new page --log log --slots 255 --lost`";
    stands(&folder, "", |ended| ended.refused(14, told));
    folder.wv(PROVE).refused(14, told);
    folder.wv(STOCK).refused(14, told);
}

#[test]
fn files_that_are_no_shelf() {
    let folder = Folder::with_shelf("support_no_shelf");
    let log = folder.read("log");
    folder.write("log", &folder.read("page"));
    folder.wv(STATUS).mistaken("log: the log is no log");
    folder.wv(PROVE).mistaken("log: the log is no log");
    let mut damaged = log.clone();
    // The header has 50 bytes; then the lines, of which this is the second.
    damaged[50 + LINE] ^= 1;
    folder.write("log", &damaged);
    folder
        .wv(STATUS)
        .mistaken("log: line 3 of the log is damaged");
    folder.write("log", &log);
    fs::remove_file(folder.path("page")).unwrap();
    folder
        .wv(STATUS)
        .mistaken("page: the shelf page is not there: put it back");
    folder
        .wv(PROVE)
        .mistaken("page: the shelf page is not there: put it back");
    fs::create_dir(folder.path("page")).unwrap();
    folder.wv(STATUS).mistaken("page: ");
}

/// A call that was cut off behind its log's full stop: told, and not finished.
#[test]
fn an_unfinished_call() {
    let folder = Folder::with_shelf("support_unfinished");
    let old = proved(&folder);
    let log = folder.read("log");
    folder.write("log", &log[..log.len() - 1]);
    folder.write("page", &old);
    let told = "unfinished: a call is at work, or was cut off\n";
    let lines = format!("slots 3\nready 2\ndraws 1\nlog 1\npage present\n{told}");
    stands(&folder, &lines, |ended| {
        assert_eq!((ended.status, ended.err.as_str()), (0, ""));
    });
    let start = Instant::now();
    folder.wv(&format!("{STATUS} --wait 0.2")).says(&lines);
    assert!(start.elapsed() >= Duration::from_millis(200));
    folder.wv(STOCK).says("stocked 1\n");
    folder
        .wv(STATUS)
        .says("slots 3\nready 3\ndraws 1\nlog 1\npage present\n");
}

#[test]
fn status_for_programs() {
    let folder = Folder::with_shelf("support_json");
    let json = format!("{STATUS} --json");
    folder.wv(&json).says(
        "{\"slots\":3,\"ready\":3,\"draws\":0,\"log\":0,\"page\":\"present\",\
         \"stockings_missing\":0,\"draws_missing\":0,\"draws_ahead\":0,\"unfinished\":false,\
         \"refused\":null,\"message\":null}\n",
    );
    let old = proved(&folder);
    folder.write("page", &old);
    let behind = folder.wv(&json);
    behind.refused(15, "page is old, 1 draw behind");
    let message = behind.err.trim_start_matches("wv: ").trim_end();
    let object = format!(
        "{{\"slots\":3,\"ready\":3,\"draws\":0,\"log\":1,\"page\":\"behind\",\
         \"stockings_missing\":0,\"draws_missing\":1,\"draws_ahead\":0,\"unfinished\":false,\
         \"refused\":15,\"message\":\"{message}\"}}\n"
    );
    assert_eq!(behind.text(), object);
    let missing = folder.wv("shelf status page --log nolog --json");
    let message = "nolog: the log is not there: name the log of this page; if it is lost, no page \
                   of this shelf can be trusted: delete all its pages, and make a new shelf with a \
                   new log and new roots";
    let object = format!("{{\"refused\":null,\"message\":\"{message}\"}}\n");
    assert_eq!((missing.status, missing.text()), (2, object.as_str()));
    assert_eq!(missing.err, format!("wv: {message}\n"));
    let misused = folder.wv("shelf status --json");
    assert_eq!(misused.status, 2);
    assert!(misused
        .text()
        .starts_with("{\"refused\":null,\"message\":\"an argument"));
    assert_eq!(misused.text().lines().count(), 1);
}

#[test]
fn checks_for_programs() {
    let folder = Folder::with_shelf("check_json");
    proved(&folder);
    let check = "check covers16.circuit proof --message text:a --json --y";
    folder.wv(&format!("{check} hex:f50100")).says(
        "{\"accepted\":true,\"m\":145,\"tau\":66,\"n\":8,\"bits\":128.0,\
         \"refused\":null,\"message\":null}\n",
    );
    let few = folder.wv(&format!("{check} hex:f50100 --bits 200"));
    few.unwanted("and 200 are asked for");
    let start = "{\"accepted\":false,\"m\":145,\"tau\":66,\"n\":8,\"bits\":128.0,\
                 \"refused\":null,\"message\":\"refused: proof: the proof holds";
    assert!(few.text().starts_with(start), "{few:?}");
    let proof = folder.read("proof");
    folder.write("cut", &proof[..proof.len() - 1]);
    let check = check.replace("proof", "cut");
    let cut = folder.wv(&format!("{check} hex:f50100"));
    cut.refused(
        12,
        "cut: it does not hold: y is not what the prover's row gives, or",
    );
    // The keys of a refusal are those that the help tells.
    let help = folder.wv("help check");
    let told = "an object with the keys accepted, refused and";
    assert!(help.text().contains(told), "{help:?}");
    let start = "{\"accepted\":false,\"refused\":12,\"message\":\"refused 12: ";
    assert!(cut.text().starts_with(start), "{cut:?}");
    assert!(cut.text().ends_with("\"}\n"), "{cut:?}");
}

#[test]
fn circuits_for_programs() {
    let folder = Folder::with_circuit("circuit_json");
    let refused = folder.wv("circuit row --json");
    refused.refused(1, "row");
    assert_eq!(
        refused.text(),
        "{\"refused\":1,\"message\":\"refused 1: row: this is no circuit file: `wv build` makes one \
         from a statement, `wv convert` from a Bristol Fashion text (the circuit's length is not \
         what its header asks for)\"}\n"
    );
}

/// The shelf, held by this process. A test beside this one can have a child that
/// has not let go of an earlier one yet.
fn held(folder: &Folder) -> Shelf {
    loop {
        match Shelf::open(folder.path("page"), folder.path("log")) {
            Err(Trouble::Busy) => thread::sleep(Duration::from_millis(1)),
            opened => return opened.expect("a shelf"),
        }
    }
}

/// Exit status 3, and nothing is changed.
#[test]
fn a_shelf_that_is_open_elsewhere() {
    let folder = Folder::with_shelf("busy");
    let shelf = held(&folder);
    let before = folder.files();
    folder.wv(PROVE).busy();
    folder.wv(STOCK).busy();
    let start = Instant::now();
    folder.wv(&format!("{PROVE} --wait 0.3")).busy();
    assert!(start.elapsed() >= Duration::from_millis(300));
    folder.wv(&format!("{STOCK} --wait 0")).busy();
    let second = folder.path("second");
    fs::rename(folder.path("page"), &second).unwrap();
    folder
        .wv("shelf new page --log log --slots 3 --lost")
        .busy();
    fs::rename(second, folder.path("page")).unwrap();
    assert_eq!(folder.files(), before);
    drop(shelf);
    // A test beside this one can have a child that has not let go yet.
    let ended = folder.wv(&format!("{PROVE} --wait 60"));
    ended.says(&proved_line(&folder));
}

fn proved_line(folder: &Folder) -> String {
    format!("proved f50100 in {} bytes\n", folder.read("proof").len())
}

#[test]
fn waiting_for_a_shelf() {
    let folder = Folder::with_shelf("waiting");
    for line in [PROVE, STOCK] {
        let shelf = held(&folder);
        let start = Instant::now();
        let holder = thread::spawn(move || {
            thread::sleep(Duration::from_millis(300));
            drop(shelf);
        });
        let ended = folder.wv(&format!("{line} --wait 60"));
        assert_eq!((ended.status, ended.err.as_str()), (0, ""), "{ended:?}");
        assert!(start.elapsed() >= Duration::from_millis(300));
        assert!(start.elapsed() < Duration::from_secs(30));
        holder.join().unwrap();
    }
    assert_eq!(folder.draws(), 1);
    for wait in ["-1", "nan", "inf", "soon", "1e3", &"9".repeat(30)] {
        folder
            .wv(&format!("{STOCK} --wait {wait}"))
            .mistaken(&format!("--wait {wait}: this is not a number of seconds"));
    }
}

#[cfg(unix)]
mod only_reads {
    use super::*;
    use std::fs::Permissions;
    use std::os::unix::fs::{MetadataExt, PermissionsExt};

    /// All that a write, a new name or a change of rights would leave behind.
    fn marks(folder: &Folder) -> Vec<(u64, i64, i64, i64, i64, u64)> {
        let of = |name| {
            let found = fs::metadata(folder.path(name)).unwrap();
            (
                found.ino(),
                found.mtime(),
                found.mtime_nsec(),
                found.ctime(),
                found.ctime_nsec(),
                found.len(),
            )
        };
        [".", "page", "log"].map(of).to_vec()
    }

    /// Beside a process that has the shelf open.
    #[test]
    fn beside_a_host() {
        let folder = Folder::with_shelf("status_beside");
        let shelf = held(&folder);
        let before = marks(&folder);
        thread::sleep(Duration::from_millis(20));
        folder
            .wv(STATUS)
            .says("slots 3\nready 3\ndraws 0\nlog 0\npage present\n");
        assert_eq!(marks(&folder), before);
        drop(shelf);
    }

    /// With files and a folder that may only be read, by a user who is not root
    /// if that can be had.
    #[test]
    fn what_may_only_be_read() {
        let folder = Folder::with_shelf("status_read_only");
        let mode = |name, mode| {
            fs::set_permissions(folder.path(name), Permissions::from_mode(mode)).unwrap();
        };
        mode("page", 0o444);
        mode("log", 0o444);
        mode(".", 0o555);
        let before = marks(&folder);
        let lines = "slots 3\nready 3\ndraws 0\nlog 0\npage present\n";
        folder.wv(STATUS).says(lines);
        if let Some(ended) = as_nobody(&folder) {
            ended.says(lines);
        }
        assert_eq!(marks(&folder), before);
        mode(".", 0o755);
    }

    fn as_nobody(folder: &Folder) -> Option<Ended> {
        let mut call = setpriv("a status by a user who may only read", &folder.path("."))?;
        call.arg(env!("CARGO_BIN_EXE_wv")).args(words(STATUS));
        Some(ended(call, b""))
    }
}
