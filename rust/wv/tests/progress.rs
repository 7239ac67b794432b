//! The line that tells of a long call: on a terminal, and nowhere else.
#![cfg(target_os = "linux")]

use std::env;
use std::ffi::{c_char, c_int};
use std::fs::{File, OpenOptions};
use std::io::Read;
use std::os::fd::{AsRawFd, FromRawFd};
use std::process::{Command, Stdio};
use std::thread;
use std::time::Duration;
use wv::progress::Progress;

extern "C" {
    fn posix_openpt(flags: c_int) -> c_int;
    fn grantpt(terminal: c_int) -> c_int;
    fn unlockpt(terminal: c_int) -> c_int;
    fn ptsname_r(terminal: c_int, name: *mut c_char, len: usize) -> c_int;
}

const CALL: &str = "WV_TEST_LONG_CALL";

/// A terminal: the end that we read, and the end for a process.
fn terminal() -> (File, File) {
    let mut name = [0_u8; 64];
    // SAFETY: plain calls; the name fits, and the descriptor is ours.
    let ours = unsafe {
        let terminal = posix_openpt(2);
        assert!(terminal >= 0);
        assert_eq!((grantpt(terminal), unlockpt(terminal)), (0, 0));
        let done = ptsname_r(terminal, name.as_mut_ptr().cast(), name.len());
        assert_eq!(done, 0);
        File::from_raw_fd(terminal)
    };
    let len = name.iter().position(|&byte| byte == 0).expect("an end");
    let name = std::str::from_utf8(&name[..len]).expect("a path");
    let theirs = OpenOptions::new().read(true).write(true).open(name);
    (ours, theirs.expect("a terminal"))
}

/// Runs this test in a process of its own, where it is the long call.
fn long_call(errors: Stdio) -> std::process::Child {
    Command::new(env::current_exe().expect("a path"))
        .args(["--exact", "a_line_on_a_terminal_alone"])
        .env(CALL, "1")
        .stdout(Stdio::null())
        .stderr(errors)
        .spawn()
        .expect("it runs")
}

/// What was shown. At the end a terminal gives an error.
fn all_from(terminal: &mut File) -> String {
    let mut shown = vec![];
    let mut part = [0; 200];
    while let Ok(len @ 1..) = terminal.read(&mut part) {
        shown.extend(&part[..len]);
    }
    String::from_utf8(shown).expect("text")
}

#[test]
fn a_line_on_a_terminal_alone() {
    if env::var(CALL).is_ok() {
        let progress = Progress::start("proving");
        thread::sleep(Duration::from_millis(400));
        progress.tell("proving, 1 of 2");
        thread::sleep(Duration::from_millis(500));
        return;
    }
    let (mut ours, theirs) = terminal();
    assert!(ours.as_raw_fd() != theirs.as_raw_fd());
    let mut call = long_call(theirs.into());
    assert!(call.wait().expect("it ends").success());
    let shown = all_from(&mut ours);
    assert!(shown.starts_with("\rproving: 0."), "{shown:?}");
    assert!(shown.contains(" s\r"), "{shown:?}");
    assert!(shown.contains("\rproving, 1 of 2: 0."), "{shown:?}");
    assert!(shown.ends_with("\r\x1b[K"), "{shown:?}");

    let ended = long_call(Stdio::piped())
        .wait_with_output()
        .expect("it ends");
    assert!(ended.status.success());
    assert_eq!(ended.stderr, b"");
}
