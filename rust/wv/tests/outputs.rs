//! Outputs: nothing that is needed is overwritten, and nothing is left by half.
//!
//! No test names a file in `/dev` as an output: with a fault in `wv` it would be
//! replaced for the whole machine. Descriptors lead there as well.
#![deny(unused_must_use)]
#![cfg(unix)]

mod common;

use common::{covers16, ended, setpriv, skipped, words, Folder, Y};
use std::fs::{self, Permissions};
use std::os::unix::fs::{chown, symlink, MetadataExt, PermissionsExt};
use std::os::unix::process::{CommandExt, ExitStatusExt};
use std::process::Stdio;
use std::thread;
use std::time::Duration;

const PROVE: &str =
    "prove covers16.circuit row --shelf page --log log --message order --y claimed --out";

/// A folder with a shelf and a file for every input.
fn folder(name: &str) -> Folder {
    let folder = Folder::with_shelf(name);
    folder.write("order", b"order 7");
    folder.write("claimed", &[0xf5, 1, 0]);
    folder
}

/// Refused with these words; no root is drawn, and every byte stays.
fn assert_kept(folder: &Folder, line: &str, part: &str) {
    let before = folder.files();
    let ended = folder.wv(line);
    ended.mistaken(part);
    ended.mistaken("the output needs a file of its own");
    assert_eq!(folder.files(), before, "{line}");
}

#[test]
fn an_output_replaces_no_file_of_the_call() {
    let folder = folder("own_file");
    let files = [
        ("page", "the shelf page page"),
        ("log", "the log log"),
        ("covers16.circuit", "the circuit covers16.circuit"),
        ("row", "the witness row"),
        ("order", "the message order"),
        ("claimed", "the claimed output claimed"),
    ];
    fs::create_dir(folder.path("sub")).unwrap();
    for (file, what) in files {
        symlink(file, folder.path("link")).unwrap();
        symlink("link", folder.path("second_link")).unwrap();
        fs::hard_link(folder.path(file), folder.path("hard")).unwrap();
        let absolute = folder.path(file).display().to_string();
        let dotted = format!("./{file}");
        let around = format!("sub/../{file}");
        for name in [
            file,
            &dotted,
            &around,
            &absolute,
            "link",
            "second_link",
            "hard",
        ] {
            let part = format!("--out {name} is {what}");
            assert_kept(&folder, &format!("{PROVE} {name}"), &part);
            assert_kept(&folder, &format!("{PROVE}={name}"), &part);
        }
        for name in ["link", "second_link", "hard"] {
            fs::remove_file(folder.path(name)).unwrap();
        }
    }
}

/// The page's neighbour, whether it is there or not, and in any case of letters.
#[test]
fn an_output_is_not_the_next_page() {
    let folder = folder("next_page");
    let part = "where the shelf's next page is written";
    let absolute = folder.path("page.next").display().to_string();
    symlink("page.next", folder.path("link")).unwrap();
    for name in ["page.next", "./page.next", "PAGE.next", "link", &absolute] {
        assert_kept(&folder, &format!("{PROVE} {name}"), part);
    }
    folder.write("page.next", b"left by a cut");
    for name in ["page.next", "./page.next", "link", &absolute] {
        assert_kept(&folder, &format!("{PROVE} {name}"), part);
    }
}

/// The next page would be written over an input that lies in its place.
#[test]
fn an_input_is_not_the_next_page() {
    let folder = folder("input_next_page");
    fs::hard_link(folder.path("row"), folder.path("page.next")).unwrap();
    let before = folder.files();
    folder
        .wv(&format!("{PROVE} proof"))
        .mistaken("the witness row is page.next, where the shelf's next page is written");
    assert_eq!(folder.files(), before);
}

/// A page behind a link: its neighbour lies where the link leads.
#[test]
fn the_next_page_behind_a_link() {
    let folder = folder("next_behind_link");
    fs::create_dir(folder.path("real")).unwrap();
    fs::rename(folder.path("page"), folder.path("real/page")).unwrap();
    symlink("real/page", folder.path("page")).unwrap();
    let part = "where the shelf's next page is written";
    assert_kept(&folder, &format!("{PROVE} real/page.next"), part);
    assert_kept(&folder, &format!("{PROVE} page.next"), part);
    assert_kept(
        &folder,
        &format!("{PROVE} real/page"),
        "the shelf page page",
    );
}

#[test]
fn outputs_of_a_circuit_replace_no_file() {
    let folder = folder("evaluate_own_file");
    let evaluate = "evaluate covers16.circuit row --out";
    assert_kept(&folder, &format!("{evaluate} row"), "the witness row");
    assert_kept(
        &folder,
        &format!("{evaluate} ./covers16.circuit"),
        "the circuit covers16.circuit",
    );
}

/// Inputs and outputs that the shell has opened are files too.
#[test]
fn descriptors_are_files_too() {
    let folder = folder("descriptors");
    let kept = |script: &str, part: &str| {
        let before = folder.files();
        folder.sh(script).mistaken(part);
        assert_eq!(folder.files(), before, "{script}");
    };
    let prove = "wv prove covers16.circuit - --shelf page --log log --message order";
    kept(
        &format!("{prove} --out row < row"),
        "--out row is the witness standard input",
    );
    let from_3 = prove.replace(" - ", " fd:3 ");
    kept(
        &format!("{from_3} --out row 3< row"),
        "--out row is the witness fd:3",
    );
    kept(
        &format!("{prove} --out - < row >> page"),
        "standard output is the shelf page page",
    );
    kept(
        &format!("{prove} --out /dev/fd/1 < row >> log"),
        "standard output is the log log",
    );
    kept(
        &format!("{prove} --out /dev/fd/4 < row 4>> page"),
        "--out /dev/fd/4 is the shelf page page",
    );
    kept(
        "wv evaluate covers16.circuit row >> row",
        "standard output is the witness row",
    );
}

/// A device can be read and written by one call.
#[test]
fn a_device_is_no_file() {
    let folder = folder("device");
    let prove = "prove covers16.circuit row --shelf page --log log --message /dev/null --out";
    let ended = folder.sh(&format!("wv {prove} /dev/fd/3 3> /dev/null"));
    assert_eq!((ended.status, ended.err.as_str()), (0, ""));
    assert_eq!(folder.draws(), 1);
}

#[test]
fn an_old_output_is_replaced_whole() {
    let folder = folder("replaced");
    let old = vec![7; 100_000];
    folder.write("proof", &old);
    let path = folder.path("proof");
    fs::set_permissions(&path, Permissions::from_mode(0o640)).unwrap();
    // Only root can give a file away.
    let _ = chown(&path, Some(65_534), Some(65_534));
    let old_file = fs::metadata(&path).unwrap();
    let owner = (old_file.uid(), old_file.gid());
    let names: Vec<_> = folder.files().into_keys().collect();
    let made = folder.wv(&format!("{PROVE} proof"));
    let len = folder.read("proof").len();
    made.says(&format!("proved {Y} in {len} bytes\n"));
    assert!(len < old.len());
    let found = fs::metadata(&path).unwrap();
    assert_eq!(found.mode() & 0o7777, 0o640, "the permissions are kept");
    assert_eq!((found.uid(), found.gid()), owner, "and the owner");
    assert_ne!(found.ino(), old_file.ino(), "it is another file");
    let after: Vec<_> = folder.files().into_keys().collect();
    assert_eq!(after, names, "nothing is left beside it");
}

#[test]
fn an_output_behind_a_link() {
    let folder = folder("link");
    fs::create_dir(folder.path("far")).unwrap();
    symlink("far/y", folder.path("link")).unwrap();
    for _ in ["a new file", "the old file"] {
        folder
            .wv("evaluate covers16.circuit row --out link")
            .says("");
        assert_eq!(folder.read("far/y"), format!("{Y}\n").as_bytes());
        let link = fs::symlink_metadata(folder.path("link")).unwrap();
        assert!(link.is_symlink());
        assert_eq!(fs::read_dir(folder.path("far")).unwrap().count(), 1);
        folder.write("far/y", b"old");
    }
    symlink("round", folder.path("round")).unwrap();
    folder
        .wv("evaluate covers16.circuit row --out round")
        .mistaken("round: ");
}

/// Devices, pipes and descriptors are written to as they are.
#[test]
fn direct_outputs() {
    let folder = folder("direct");
    let evaluate = "wv evaluate covers16.circuit row --out";
    let around = |call: &str| {
        folder
            .sh(&format!("{{ echo head; {call}; echo tail; }} > file"))
            .says("");
        String::from_utf8(folder.read("file")).unwrap()
    };
    let expected = format!("head\n{Y}\ntail\n");
    // As `/dev/stdout` is.
    symlink("/proc/self/fd/1", folder.path("stdout")).unwrap();
    for name in ["-", "stdout", "/dev/fd/1", "/proc/self/fd/1"] {
        assert_eq!(around(&format!("{evaluate} {name}")), expected, "{name}");
    }
    folder
        .sh(&format!(
            "{{ echo head >&3; {evaluate} /dev/fd/3; echo tail >&3; }} 3> file"
        ))
        .says("");
    assert_eq!(folder.read("file"), expected.as_bytes());
    folder
        .sh(&format!("{evaluate} stdout | cat"))
        .says(&format!("{Y}\n"));
    folder
        .sh(&format!(
            "mkfifo fifo; cat fifo > got & {evaluate} fifo; wait"
        ))
        .says("");
    assert_eq!(folder.read("got"), format!("{Y}\n").as_bytes());
    let made = folder.sh(&format!("wv {PROVE} /dev/fd/3 3> /dev/full"));
    made.mistaken("/dev/fd/3: No space left");
}

/// A proof on standard output has nothing else around it.
#[test]
fn a_proof_on_standard_output() {
    let folder = folder("proof_out");
    let made = folder.wv(&format!("{PROVE} /dev/fd/1"));
    assert_eq!((made.status, made.err.as_str()), (0, ""));
    let check = "check covers16.circuit - --y claimed --message order";
    let checked = folder.wv_reading(check, &made.out);
    checked.says("accepted, M 145, tau 66, n 8, soundness 128.0 bits\n");
}

/// Told before a root is drawn, and nothing is made.
#[test]
fn a_place_that_cannot_be_written() {
    let folder = folder("no_place");
    fs::create_dir(folder.path("sub")).unwrap();
    let long = "n".repeat(256);
    let before = folder.files();
    for out in [
        "no/proof",
        "sub",
        "sub/",
        "new/",
        ".",
        "row/proof",
        "''",
        "fd/",
        &long,
    ] {
        let shown = out.trim_matches('\'');
        folder
            .wv(&format!("{PROVE} {out}"))
            .mistaken(&format!("wv: {shown}: "));
        assert_eq!(folder.files(), before, "{out}");
    }
    let closed = format!("wv {PROVE} /dev/fd/9");
    folder.sh(&closed).mistaken("/dev/fd/9: ");
    let for_reading = format!("wv {PROVE} /dev/fd/3 3< claimed");
    folder.sh(&for_reading).mistaken("/dev/fd/3 is the claimed");
    let for_reading = format!("wv {PROVE} /dev/fd/3 3< /dev/null");
    folder.sh(&for_reading).mistaken("/dev/fd/3: Bad file");
    let for_reading = format!("wv {PROVE} - 1< /dev/null");
    folder
        .sh(&for_reading)
        .mistaken("standard output: Bad file");
    assert_eq!(folder.files(), before);
}

/// A longest name has no room for another name beside it that begins with it.
#[test]
fn the_longest_name() {
    let folder = folder("longest_name");
    let name = "n".repeat(255);
    folder
        .wv(&format!("evaluate covers16.circuit row --out {name}"))
        .says("");
    assert_eq!(folder.read(&name), format!("{Y}\n").as_bytes());
}

/// A limit stands in for a full disk. The old proof stays, and nothing beside it.
#[test]
fn a_full_disk() {
    let folder = folder("full_disk");
    folder.write("proof", b"old");
    let names: Vec<_> = folder.files().into_keys().collect();
    let script = format!("trap '' XFSZ; ulimit -f 2; exec wv {PROVE} proof");
    folder.sh(&script).mistaken("proof: File too large");
    assert_eq!(folder.read("proof"), b"old");
    let after: Vec<_> = folder.files().into_keys().collect();
    assert_eq!(after, names);
    assert_eq!(folder.draws(), 1, "the root is not used again");
}

/// Runs `wv` as a user who is not root, if this one is and can.
fn as_nobody(folder: &Folder, line: &str) -> Option<common::Ended> {
    if !is_root(folder) {
        return Some(folder.wv(line));
    }
    let what = format!("wv {line}, by a user who is not root");
    let mut call = setpriv(&what, &folder.path("."))?;
    call.arg(env!("CARGO_BIN_EXE_wv")).args(words(line));
    Some(ended(call, b""))
}

/// Are the files here root's?
fn is_root(folder: &Folder) -> bool {
    fs::metadata(folder.path("row")).unwrap().uid() == 0
}

#[test]
fn a_folder_that_may_not_be_written() {
    let folder = folder("read_only");
    fs::create_dir(folder.path("shut")).unwrap();
    folder.write("shut/y", b"old");
    folder.write("kept", b"old");
    fs::set_permissions(folder.path("shut/y"), Permissions::from_mode(0o666)).unwrap();
    fs::set_permissions(folder.path("kept"), Permissions::from_mode(0o444)).unwrap();
    fs::set_permissions(folder.path("shut"), Permissions::from_mode(0o555)).unwrap();
    fs::set_permissions(folder.path("."), Permissions::from_mode(0o777)).unwrap();
    let parts = [
        ("shut/y", "shut/y: no file can be made in its folder: "),
        ("kept", "kept: Permission denied"),
    ];
    for (out, part) in parts {
        let line = format!("evaluate covers16.circuit row --out {out}");
        if let Some(ended) = as_nobody(&folder, &line) {
            ended.mistaken(part);
            assert_eq!(folder.read(out), b"old");
        }
    }
    fs::set_permissions(folder.path("shut"), Permissions::from_mode(0o755)).unwrap();
}

/// What cannot be read may be the page of a shelf, so it is not replaced.
#[test]
fn a_file_that_may_not_be_read() {
    let folder = folder("unread");
    folder.write("unread", b"old");
    let mode = |mode| fs::set_permissions(folder.path("unread"), Permissions::from_mode(mode));
    fs::set_permissions(folder.path("."), Permissions::from_mode(0o777)).unwrap();
    mode(0o222).unwrap();
    let ended = as_nobody(&folder, "evaluate covers16.circuit row --out unread");
    mode(0o644).unwrap();
    if let Some(ended) = ended {
        ended.mistaken("unread: Permission denied");
        assert_eq!(folder.read("unread"), b"old");
    }
}

/// In a sticky folder nobody replaces the file of another user.
#[test]
fn a_sticky_folder() {
    let folder = folder("sticky");
    fs::create_dir(folder.path("tmp")).unwrap();
    folder.write("tmp/y", b"old");
    fs::set_permissions(folder.path("tmp/y"), Permissions::from_mode(0o666)).unwrap();
    fs::set_permissions(folder.path("tmp"), Permissions::from_mode(0o1777)).unwrap();
    let line = "evaluate covers16.circuit row --out tmp/y";
    if !is_root(&folder) {
        skipped("a sticky folder", "every file is this user's own");
    } else if let Some(ended) = as_nobody(&folder, line) {
        ended.mistaken("tmp/y: permission denied");
        assert_eq!(folder.read("tmp/y"), b"old");
    }
    assert_eq!(fs::read_dir(folder.path("tmp")).unwrap().count(), 1);
}

/// 512 inputs and 4,096 AND gates, which take long.
fn long_circuit() -> Vec<u8> {
    let mut words = vec![512_u32, 1, 4096, 1, 0];
    for slot in 1..=4096 {
        words.extend([2, 0, 1, (slot + 1) % 4097]);
    }
    words.iter().flat_map(|word| word.to_le_bytes()).collect()
}

extern "C" {
    fn kill(process: i32, signal: i32) -> i32;
    fn signal(signal: i32, handler: usize) -> usize;
}

const SIGINT: i32 = 2;
const SIGKILL: i32 = 9;

/// Killed after the draw and before the proof is there: the old one stays, and
/// nothing beside it.
#[test]
fn killed_while_proving() {
    let folder = folder("killed");
    folder.write("long.circuit", &long_circuit());
    folder.write("long.row", &[0; 64]);
    folder.write("proof", b"old");
    let names: Vec<_> = folder.files().into_keys().collect();
    let line = "prove long.circuit long.row --shelf page --log log --message order --out proof \
                --instances 512 --chosen 500 --parties 16";
    for (drawn, signal_sent) in [(1, SIGKILL), (2, SIGINT)] {
        let mut command = folder.command(words(line));
        // SAFETY: one call that may be made between fork and exec.
        unsafe {
            command.pre_exec(|| {
                signal(SIGINT, 0);
                Ok(())
            });
        }
        let mut run = command.stderr(Stdio::null()).spawn().expect("it starts");
        // The line's end says that the page is in place: what is left is the proof.
        while folder.draws() < drawn || !folder.read("log").ends_with(b"\n") {
            thread::sleep(Duration::from_millis(1));
        }
        thread::sleep(Duration::from_millis(10));
        // SAFETY: it is our child, which is not waited for yet.
        assert_eq!(unsafe { kill(run.id() as i32, signal_sent) }, 0);
        let status = run.wait().expect("it ends");
        assert_eq!(status.signal(), Some(signal_sent), "{status:?}");
        assert_eq!(folder.read("proof"), b"old");
        let after: Vec<_> = folder.files().into_keys().collect();
        assert_eq!(after, names);
    }
    let status = folder.wv("shelf status page --log log");
    status.says("slots 3\nready 1\ndraws 2\nlog 2\npage present\n");
}

/// The circuit of this file is the one that it says.
#[test]
fn the_long_circuit() {
    let folder = folder("long_circuit");
    folder
        .wv_reading("circuit -", &long_circuit())
        .says("inputs 512\noutputs 1\ngates 4096\nAND gates 4096\n");
    assert_ne!(long_circuit(), covers16());
}
