//! Real processes on real files: the order of their calls, killed at every step,
//! and two at once at every step.
#![cfg(target_os = "linux")]

use std::collections::HashSet;
use std::fs;
use std::os::unix::process::ExitStatusExt;
use std::path::{Path, PathBuf};
use std::process::{Child, Command, Output, Stdio};
use std::sync::OnceLock;
use std::thread;
use std::time::Duration;

extern "C" {
    fn kill(process: i32, signal: i32) -> i32;
}

const CONTINUE: i32 = 18;
const KILLED: i32 = 9;
const BUSY: i32 = 3;

/// The library that sees the calls, built once.
fn steps() -> &'static Path {
    static BUILT: OnceLock<PathBuf> = OnceLock::new();
    BUILT.get_or_init(|| {
        let source = Path::new(env!("CARGO_MANIFEST_DIR")).join("tests/steps.c");
        let library = Path::new(env!("CARGO_TARGET_TMPDIR")).join("steps.so");
        let built = Command::new("cc")
            .args(["-shared", "-fPIC", "-O1", "-Wall", "-Wextra", "-o"])
            .args([&library, &source])
            .args(["-ldl"])
            .status();
        assert!(built.expect("cc starts").success());
        library
    })
}

/// A folder of its own with a circuit and a row.
struct Folder(PathBuf);

impl Folder {
    fn new(name: &str) -> Folder {
        let folder = Path::new(env!("CARGO_TARGET_TMPDIR")).join(name);
        let _ = fs::remove_dir_all(&folder);
        fs::create_dir_all(&folder).expect("a folder");
        let folder = fs::canonicalize(folder).expect("a folder");
        // Circuit K of document 01, and a row for which it gives 1.
        let k = [2_u32, 1, 1, 1, 2, 2, 0, 1, 0]
            .map(u32::to_le_bytes)
            .concat();
        fs::write(folder.join("k.circuit"), k).expect("a file");
        fs::write(folder.join("k.row"), [3]).expect("a file");
        Folder(folder)
    }

    fn path(&self, name: &str) -> PathBuf {
        self.0.join(name)
    }

    fn wv(&self, line: &str) -> Command {
        let mut command = Command::new(env!("CARGO_BIN_EXE_wv"));
        command
            .args(line.split_whitespace())
            .current_dir(&self.0)
            .stdin(Stdio::null())
            .stdout(Stdio::piped())
            .stderr(Stdio::piped());
        command
    }

    fn run(&self, line: &str) -> Output {
        self.wv(line).output().expect("wv ends")
    }

    /// Runs to its end, which must be a good one.
    fn done(&self, line: &str) -> String {
        let ended = self.run(line);
        assert!(ended.status.success(), "{line}: {ended:?}");
        String::from_utf8(ended.stdout).expect("text")
    }

    /// A run whose steps are seen.
    fn watched(&self, line: &str, wish: &str, value: &str) -> Command {
        let mut command = self.wv(line);
        command
            .env("LD_PRELOAD", steps())
            .env("WV_STEPS_IN", &self.0)
            .env(wish, value);
        command
    }

    /// The steps of a run that ends well.
    fn steps_of(&self, line: &str) -> Vec<String> {
        let trace = self.0.with_extension("trace");
        let _ = fs::remove_file(&trace);
        let path = trace.to_str().expect("text");
        let ended = self.watched(line, "WV_STEPS_TRACE", path).output();
        let ended = ended.expect("wv ends");
        assert!(ended.status.success(), "{line}: {ended:?}");
        let text = fs::read_to_string(&trace).expect("a trace");
        fs::remove_file(&trace).expect("a trace");
        text.lines().map(without_number).collect()
    }

    /// The number in a line of the status.
    fn status(&self, word: &str) -> usize {
        let text = self.done("shelf status page --log log");
        let line = text.lines().find_map(|line| line.strip_prefix(word));
        line.expect("a line").trim().parse().expect("a number")
    }

    /// The shelf as a new one with `ready` roots of eight slots.
    fn new_shelf(&self, ready: usize) {
        for name in ["page", "log", "page.next"] {
            let _ = fs::remove_file(self.path(name));
        }
        self.done("shelf new page --log log --slots 8");
        self.done(&format!("shelf stock page --log log --fresh {ready}"));
    }
}

impl Drop for Folder {
    fn drop(&mut self) {
        let _ = fs::remove_dir_all(&self.0);
    }
}

/// Names that are made for one run alone are `NAME.new`.
fn without_number(line: &str) -> String {
    let words = line.split(' ').map(|word| match word.split_once(".new-") {
        Some((name, _)) => format!("{name}.new"),
        None => word.to_string(),
    });
    words.collect::<Vec<_>>().join(" ")
}

const STOCK: &str = "shelf stock page --log log --fresh 1";

/// A proof of the same statement with the same salt each time: with the same root it
/// would be the same proof.
fn prove(out: &str) -> String {
    format!(
        "prove k.circuit k.row --shelf page --log log --message text:m --out {out} \
         --salt text:the_same_salt_of_32_bytes_in_all --instances 4 --chosen 2 --parties 2"
    )
}

/// What the order of writes asks for: each write is on disk before the next, the
/// line before its full stop, both before the page, the page before its name, and
/// all that before the proof.
#[test]
fn every_write_waits_for_the_disk() {
    let folder = Folder::new("waits");
    let new = folder.steps_of("shelf new page --log log --slots 8");
    let log_line = ["write log", "fsync log", "write log", "fsync log"];
    let log_end = ["write log", "fsync log"];
    let made = |name: &str| {
        let steps = [
            "create N.new",
            "write N.new",
            "fsync N.new",
            "link N.new N",
            "remove N.new",
        ];
        steps.map(|step| step.replace('N', name))
    };
    let mut expected = made("log").to_vec();
    expected.insert(1, "lock log.new".into());
    expected.push("fsync .".into());
    expected.extend(["fsync log", "fsync ."].map(String::from));
    expected.extend(log_line.map(String::from));
    expected.extend(made("page"));
    expected.push("fsync .".into());
    expected.extend(log_end.map(String::from));
    assert_eq!(new, expected);

    let opened = ["lock log", "fsync log", "fsync ."];
    let replaced = [
        "open page.next",
        "write page.next",
        "fsync page.next",
        "fsync .",
        "rename page.next page",
        "fsync .",
    ];
    let expected = [&opened[..], &log_line, &replaced, &log_end].concat();
    assert_eq!(folder.steps_of(STOCK), expected);
    let proved = folder.steps_of(&prove("proof"));
    let of_shelf: Vec<_> = proved.iter().filter(|step| is_of_shelf(step)).collect();
    let expected = [
        &opened[..2],
        &log_line,
        &replaced[..3],
        &replaced[4..5],
        &log_end,
    ]
    .concat();
    assert_eq!(of_shelf, expected);
    // The proof is written, and its file replaced, when the shelf is done.
    let last = proved.iter().rposition(|step| is_of_shelf(step));
    let after = &proved[last.expect("a step") + 1..];
    let words: Vec<_> = after.iter().map(|step| step.split(' ').next()).collect();
    let expected = ["create", "write", "fsync", "rename", "fsync"];
    assert_eq!(words, expected.map(Some), "{proved:?}");
    assert!(after[3].ends_with(" proof"), "{proved:?}");
}

fn is_of_shelf(step: &str) -> bool {
    let mut words = step.split(' ').skip(1);
    words.any(|word| word.starts_with("page") || word.starts_with("log"))
}

/// Looking at a shelf makes no step at all.
#[test]
fn a_status_makes_no_step() {
    let folder = Folder::new("no_step");
    folder.new_shelf(1);
    let trace = folder.0.with_extension("trace");
    let path = trace.to_str().expect("text");
    let line = "shelf status page --log log";
    let ended = folder.watched(line, "WV_STEPS_TRACE", path).output();
    assert!(ended.expect("wv ends").status.success());
    assert!(!trace.exists());
}

/// 500 runs and more are killed, each at a step of its own, and the shelf is used
/// on after each. No root goes out twice, and a kill costs one root at most.
#[test]
fn killed_at_every_step() {
    let folder = Folder::new("killed");
    folder.new_shelf(4);
    let most = 1 + folder.steps_of(&prove("first")).len();
    let mut proofs = vec![fs::read(folder.path("first")).expect("a proof")];
    let mut kills = 0;
    for turn in 0.. {
        for line in [prove("proof"), STOCK.to_string()] {
            for step in 0..most {
                let step = step.to_string();
                let ended = folder.watched(&line, "WV_STEPS_KILL", &step).output();
                let ended = ended.expect("wv ends");
                let killed = ended.status.signal() == Some(KILLED);
                kills += usize::from(killed);
                assert!(killed || ended.status.code().is_some());
                after_kill(&folder, &mut proofs);
                refill(&folder);
            }
        }
        assert!(turn < 40, "{kills} kills");
        if kills >= 500 {
            break;
        }
    }
    let different: HashSet<_> = proofs.iter().collect();
    assert_eq!(different.len(), proofs.len(), "a root went out twice");
    assert!(proofs.len() > 200, "{} proofs", proofs.len());
}

/// Takes the proof of the killed run, if it got so far, and makes another.
fn after_kill(folder: &Folder, proofs: &mut Vec<Vec<u8>>) {
    let ready = folder.status("ready");
    let proof = folder.path("proof");
    if let Ok(bytes) = fs::read(&proof) {
        assert_eq!(bytes.len(), bytes_of_proof(&bytes), "half a proof");
        proofs.push(bytes);
        fs::remove_file(&proof).expect("a proof");
    }
    if ready > 0 {
        folder.done(&prove("next"));
        proofs.push(fs::read(folder.path("next")).expect("a proof"));
        assert_eq!(folder.status("ready"), ready - 1);
    }
}

/// The length of a proof of K with M = 4, tau = 2, n = 2 by the paper's rule: 70, one
/// opened node of 16 or two, 32 · 2 and, for each chosen one, 16 + oct(A) + 32 +
/// oct(I) + oct(A + O), without oct(A) where the last party is hidden. Its own length,
/// if it is one of these.
fn bytes_of_proof(proof: &[u8]) -> usize {
    let longest: usize = 70 + 32 + 32 * 2 + 2 * (16 + 1 + 32 + 1 + 1);
    match longest.checked_sub(proof.len()) {
        Some(0..=2 | 16..=18) => proof.len(),
        _ => longest,
    }
}

fn refill(folder: &Folder) {
    if folder.status("ready") < 3 {
        folder.done("shelf stock page --log log --fresh 3");
    }
}

/// Runs the first until its step, then the second to its end, then the first to
/// its end; `None` when there is no such step.
fn both(folder: &Folder, first: &str, second: &str, step: usize) -> Option<[Output; 2]> {
    let step = step.to_string();
    let mut stopped = folder.watched(first, "WV_STEPS_STOP", &step);
    let mut stopped = stopped.spawn().expect("wv starts");
    if !stops(&mut stopped) {
        return None;
    }
    let second = folder.run(second);
    // SAFETY: a plain call; the process is ours and not waited for yet.
    assert_eq!(unsafe { kill(stopped.id() as i32, CONTINUE) }, 0);
    let first = stopped.wait_with_output().expect("wv ends");
    Some([first, second])
}

/// Waits until the process has stopped; false if it has ended.
fn stops(process: &mut Child) -> bool {
    let path = format!("/proc/{}/stat", process.id());
    loop {
        let stat = fs::read_to_string(&path).expect("a process");
        let state = stat
            .rsplit(") ")
            .next()
            .and_then(|rest| rest.chars().next());
        match state {
            Some('T') => return true,
            Some('Z') => return false,
            _ => thread::sleep(Duration::from_micros(200)),
        }
    }
}

fn good(ended: &Output) -> usize {
    usize::from(ended.status.success())
}

/// Of two that make one shelf, one does; what is there is its shelf alone.
#[test]
fn two_make_a_shelf() {
    let folder = Folder::new("two_new");
    let new = |slots: u32| format!("shelf new page --log log --slots {slots}");
    let mut steps = 0;
    for step in 0.. {
        for name in ["page", "log"] {
            let _ = fs::remove_file(folder.path(name));
        }
        let Some([first, second]) = both(&folder, &new(3), &new(5), step) else {
            break;
        };
        steps += 1;
        assert_eq!(good(&first) + good(&second), 1, "{first:?} {second:?}");
        let slots = if first.status.success() { 3 } else { 5 };
        assert_eq!(folder.status("slots"), slots);
        assert_eq!(
            fs::read(folder.path("page")).unwrap().len(),
            12 + 18 * slots
        );
        folder.done(STOCK);
        assert_eq!(folder.status("ready"), 1);
    }
    assert!(steps > 15, "{steps} steps");
}

/// Of two that stock, both do or one is told that the shelf is busy; so with two
/// that prove, and with one of each.
#[test]
fn two_use_a_shelf() {
    let folder = Folder::new("two_use");
    let proves = [prove("one"), prove("two")];
    let stock = STOCK.to_string();
    let pairs = [
        (&stock, &stock),
        (&proves[0], &proves[1]),
        (&stock, &proves[1]),
        (&proves[0], &stock),
    ];
    for (first, second) in pairs {
        let mut busy = 0;
        for step in 0.. {
            folder.new_shelf(2);
            for name in ["one", "two"] {
                let _ = fs::remove_file(folder.path(name));
            }
            let Some(ended) = both(&folder, first, second, step) else {
                break;
            };
            let mut ready = 2;
            for (line, ended) in [first, second].into_iter().zip(&ended) {
                let code = ended.status.code();
                assert!(code == Some(0) || code == Some(BUSY), "{line}: {ended:?}");
                busy += usize::from(code == Some(BUSY));
                let change = if line.starts_with("prove") { -1 } else { 1 };
                ready += change * good(ended) as i32;
            }
            assert_eq!(folder.status("ready"), ready as usize);
            let proofs = ["one", "two"].map(|name| fs::read(folder.path(name)).ok());
            assert!(proofs[0].is_none() || proofs[0] != proofs[1]);
        }
        assert!(busy > 5, "{busy} times busy");
    }
}
