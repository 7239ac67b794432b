//! Runs the built `wv` in a folder of the test's own.
#![allow(dead_code)]

use std::collections::BTreeMap;
use std::ffi::{OsStr, OsString};
use std::fs;
use std::io::Write;
use std::path::{Path, PathBuf};
use std::process::{Command, Output, Stdio};
use wv::at_least::{at_least, row};

/// The stock on hand covers an order, and the output tells the order: 32 inputs,
/// 17 outputs.
pub fn covers16() -> Vec<u8> {
    at_least(16, true)
}

/// 1000 on hand, 250 ordered: e8 03 and fa 00.
pub fn covers16_row() -> Vec<u8> {
    row(16, 1000, 250)
}

/// What is proved of it: bit 0 says covered, then come the 16 bits of 250, so
/// the number is 1 + 2 * 250 = 501.
pub const Y: &str = "f50100";

/// Says what a test leaves out for want of a tool. Written past the capture of a test's
/// output, on a line of its own, so that the gate sees it.
pub fn skipped(what: &str, why: &str) {
    let line = format!("\nskipped: {what}: {why}\n");
    let mut out = std::io::stdout();
    out.write_all(line.as_bytes()).expect("standard output");
}

/// A command as a user who is not root, in a folder, where the file `row` of it can be
/// read so; where not, what the test leaves out is said.
#[cfg(unix)]
pub fn setpriv(what: &str, folder: &Path) -> Option<Command> {
    let call = || {
        let mut command = Command::new("setpriv");
        command
            .args(["--reuid=65534", "--regid=65534", "--clear-groups", "--"])
            .current_dir(folder);
        command
    };
    let mut probe = call();
    probe.args(["cat", "row"]).stdout(Stdio::null());
    match probe.stderr(Stdio::null()).status() {
        Ok(status) if status.success() => return Some(call()),
        Ok(_) => skipped(what, "setpriv cannot change the user"),
        Err(_) => skipped(what, "setpriv is not installed"),
    }
    None
}

/// A folder that is removed at the end.
pub struct Folder(PathBuf);

/// How a run ended.
#[must_use]
#[derive(Debug)]
pub struct Ended {
    pub status: i32,
    pub out: Vec<u8>,
    pub err: String,
}

impl Folder {
    /// An empty folder.
    pub fn new(name: &str) -> Folder {
        let folder = Path::new(env!("CARGO_TARGET_TMPDIR")).join(name);
        remove(&folder);
        fs::create_dir_all(&folder).expect("a folder");
        Folder(folder)
    }

    /// A folder with the circuit `covers16.circuit` and the row `row`.
    pub fn with_circuit(name: &str) -> Folder {
        let folder = Folder::new(name);
        folder.write("covers16.circuit", &covers16());
        folder.write("row", &covers16_row());
        folder
    }

    /// The same, with a shelf of three roots: `page` and `log`.
    pub fn with_shelf(name: &str) -> Folder {
        let folder = Folder::with_circuit(name);
        folder.wv("shelf new page --log log --slots 3").says("");
        folder
            .wv("shelf stock page --log log --fresh 3")
            .says("stocked 3\n");
        folder
    }

    pub fn path(&self, name: impl AsRef<Path>) -> PathBuf {
        self.0.join(name)
    }

    pub fn write(&self, name: impl AsRef<Path>, bytes: &[u8]) {
        fs::write(self.path(name), bytes).expect("a file");
    }

    pub fn read(&self, name: impl AsRef<Path>) -> Vec<u8> {
        fs::read(self.path(name)).expect("a file")
    }

    pub fn has(&self, name: impl AsRef<Path>) -> bool {
        fs::symlink_metadata(self.path(name)).is_ok()
    }

    /// Every name in the folder, with the bytes of the files.
    pub fn files(&self) -> BTreeMap<OsString, Vec<u8>> {
        let entries = fs::read_dir(&self.0).expect("a folder");
        let entry = |entry: std::io::Result<fs::DirEntry>| {
            let name = entry.expect("an entry").file_name();
            let is_file = fs::metadata(self.path(&name)).is_ok_and(|found| found.is_file());
            let bytes = if is_file { self.read(&name) } else { vec![] };
            (name, bytes)
        };
        entries.map(entry).collect()
    }

    /// The draws in the log.
    pub fn draws(&self) -> usize {
        let log = String::from_utf8(self.read("log")).expect("text");
        log.lines().filter(|line| line.starts_with("draw ")).count()
    }

    /// `wv` with these words, to be run in the folder.
    pub fn command(&self, words: impl IntoIterator<Item = impl AsRef<OsStr>>) -> Command {
        let mut command = Command::new(env!("CARGO_BIN_EXE_wv"));
        command.args(words).current_dir(&self.0);
        command
    }

    /// Runs `wv` with the words of this line; single quotes keep words together.
    pub fn wv(&self, line: &str) -> Ended {
        self.wv_reading(line, b"")
    }

    pub fn wv_reading(&self, line: &str, input: &[u8]) -> Ended {
        ended(self.command(words(line)), input)
    }

    /// Runs `wv` with words that need not be text.
    #[cfg(unix)]
    pub fn wv_words(&self, words: &[&[u8]]) -> Ended {
        use std::os::unix::ffi::OsStrExt;
        ended(
            self.command(words.iter().map(|word| OsStr::from_bytes(word))),
            b"",
        )
    }

    /// Runs a script of the shell, in which `wv` is the built one.
    pub fn sh(&self, script: &str) -> Ended {
        let folder = Path::new(env!("CARGO_BIN_EXE_wv"))
            .parent()
            .expect("a folder");
        let path = std::env::var("PATH").unwrap_or_default();
        let mut shell = Command::new("sh");
        shell
            .args(["-c", script])
            .env("PATH", format!("{}:{path}", folder.display()))
            .current_dir(&self.0);
        ended(shell, b"")
    }
}

impl Drop for Folder {
    fn drop(&mut self) {
        remove(&self.0);
    }
}

/// Removes a folder, also if a test has left it or a folder in it shut.
fn remove(folder: &Path) {
    #[cfg(unix)]
    {
        use std::os::unix::fs::PermissionsExt;
        let open = |path: &Path| fs::set_permissions(path, fs::Permissions::from_mode(0o755));
        let _ = open(folder);
        for entry in fs::read_dir(folder).into_iter().flatten().flatten() {
            if entry.file_type().is_ok_and(|found| found.is_dir()) {
                let _ = open(&entry.path());
            }
        }
    }
    let _ = fs::remove_dir_all(folder);
}

/// Runs a command to its end.
pub fn ended(mut command: Command, input: &[u8]) -> Ended {
    let mut run = command
        .stdin(Stdio::piped())
        .stdout(Stdio::piped())
        .stderr(Stdio::piped())
        .spawn()
        .expect("it starts");
    // A run that ends before it reads closes the pipe.
    let _ = run.stdin.take().expect("a pipe").write_all(input);
    let Output {
        status,
        stdout,
        stderr,
    } = run.wait_with_output().expect("it ends");
    Ended {
        status: status.code().expect("no signal"),
        out: stdout,
        err: String::from_utf8(stderr).expect("text"),
    }
}

/// The words of a line.
pub fn words(line: &str) -> Vec<String> {
    let parts = line.split('\'').enumerate();
    let words = parts.flat_map(|(place, part)| match place % 2 {
        0 => part.split_whitespace().map(String::from).collect(),
        _ => vec![part.to_string()],
    });
    words.collect()
}

impl Ended {
    /// Done, with this on standard output and nothing on standard error.
    pub fn says(&self, out: &str) {
        assert_eq!(self.status, 0, "{self:?}");
        assert_eq!(String::from_utf8_lossy(&self.out), out);
        assert_eq!(self.err, "");
    }

    /// Done, with one line on standard error that has this in it.
    pub fn tells(&self, part: &str) {
        assert_eq!(self.status, 0, "{self:?}");
        self.has_line(part);
    }

    /// Refused with this number and what it is about on standard error, and then with the
    /// number's sentence.
    pub fn refused(&self, number: u32, part: &str) {
        assert_eq!(self.status, 1, "{self:?}");
        let sentence = wivulameno::Refusal::of(number).sentence();
        let start = format!("wv: refused {number}: ");
        let cause = self.err.strip_prefix(&start);
        let cause = cause.unwrap_or_else(|| panic!("{start:?} does not begin {self:?}"));
        let cause = cause.strip_suffix(&format!(" ({sentence})\n"));
        let cause = cause.unwrap_or_else(|| panic!("{sentence:?} does not end {self:?}"));
        // A part can ask for the end of it by a line's end.
        let cause = format!("{cause}\n");
        assert!(cause.contains(part), "{part:?} is not in {self:?}");
        assert_eq!(self.err.lines().count(), 1, "{self:?}");
    }

    /// Refused without a number.
    pub fn unwanted(&self, part: &str) {
        assert_eq!(self.status, 1, "{self:?}");
        assert!(self.err.starts_with("wv: refused: "), "{self:?}");
        self.has_line(part);
    }

    /// Another process has the shelf open.
    pub fn busy(&self) {
        assert_eq!((self.status, self.out.len()), (3, 0), "{self:?}");
        self.has_line("another process has the shelf open");
    }

    /// A mistake of the user, told in words that have this in them.
    pub fn mistaken(&self, part: &str) {
        assert_eq!(self.status, 2, "{self:?}");
        assert!(self.err.starts_with("wv: "), "{self:?}");
        assert!(self.err.contains(part), "{part:?} is not in {self:?}");
        assert_eq!(self.out, b"", "{self:?}");
    }

    fn has_line(&self, part: &str) {
        assert!(self.err.starts_with("wv: "), "{self:?}");
        assert!(self.err.contains(part), "{part:?} is not in {self:?}");
        assert_eq!(self.err.lines().count(), 1, "{self:?}");
    }

    /// What was printed.
    pub fn text(&self) -> &str {
        std::str::from_utf8(&self.out).expect("text")
    }
}
