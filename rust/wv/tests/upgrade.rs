//! Circuit files of the old form through the command line.
#![deny(unused_must_use)]

mod common;

use common::{covers16, Folder};

/// Circuit K of the paper in the old form, and in the present one.
const OLD: [u8; 18] = [2, 0, 1, 0, 1, 0, 1, 0, 2, 0, 2, 0, 0, 0, 1, 0, 0, 0];
const NEW: [u8; 36] = [
    2, 0, 0, 0, 1, 0, 0, 0, 1, 0, 0, 0, 1, 0, 0, 0, // I, O, G, head
    2, 0, 0, 0, // the output
    2, 0, 0, 0, 0, 0, 0, 0, 1, 0, 0, 0, 0, 0, 0, 0, // slot 1
];

const UPGRADE: &str = "upgrade old.circuit --out new.circuit";

/// A folder with this file in `old.circuit`.
fn folder(name: &str, old: &[u8]) -> Folder {
    let folder = Folder::with_shelf(name);
    folder.write("old.circuit", old);
    folder
}

/// `OLD` with another byte.
fn with(place: usize, byte: u8) -> Vec<u8> {
    let mut old = OLD.to_vec();
    old[place] = byte;
    old
}

#[test]
fn an_old_file_is_upgraded() {
    let folder = folder("upgrade", &OLD);
    let told = "upgraded to a circuit of 36 bytes\n";
    folder.wv(UPGRADE).says(told);
    assert_eq!(folder.read("new.circuit"), NEW);
    assert_eq!(folder.read("old.circuit"), OLD);
    folder
        .wv("circuit new.circuit")
        .says("inputs 2\noutputs 1\ngates 1\nAND gates 1\n");
    folder.wv("evaluate new.circuit hex:03").says("01\n");
    folder.wv(UPGRADE).says(told);
    let piped = folder.wv_reading("upgrade - --out -", &OLD);
    assert_eq!((piped.status, &piped.out[..]), (0, &NEW[..]));
    assert_eq!(piped.err, "");
}

/// The file, the number and what is told; no file is written.
#[test]
fn damaged_files() {
    let known = [
        (vec![], 1, "old.circuit"),
        (OLD[..17].to_vec(), 1, "old.circuit"),
        (with(0, 0), 2, "old.circuit"),
        (with(10, 4), 3, "old.circuit"),
        (with(11, 1), 3, "old.circuit"),
        (with(14, 2), 5, "old.circuit"),
        (
            with(6, 2),
            19,
            "old.circuit: the head leads beyond the last slot",
        ),
        (
            with(16, 2),
            19,
            "old.circuit: the link of slot 1 leads beyond",
        ),
        (
            with(6, 0),
            20,
            "old.circuit: the head is 0, but there are gates",
        ),
        (with(16, 1), 21, "old.circuit: the link of slot 1 goes on"),
        (
            NEW.to_vec(),
            2,
            "is no file of the old form, but a circuit as it is",
        ),
    ];
    for (old, number, told) in known {
        let folder = folder("upgrade_refused", &old);
        let before = folder.files();
        folder.wv(UPGRADE).refused(number, told);
        assert_eq!(folder.files(), before);
    }
}

/// Every other command refuses an old file, and says what to do; nothing is drawn.
#[test]
fn other_commands_tell_of_it() {
    let folder = folder("upgrade_told", &OLD);
    let told = "old.circuit: it is a circuit of the old form: `wv upgrade` makes it a new one";
    let prove = "prove old.circuit hex:03 --shelf page --log log --message text:a --out proof";
    for line in [
        "circuit old.circuit",
        "evaluate old.circuit hex:03",
        prove,
        "check old.circuit row --y hex:01 --message text:a",
    ] {
        folder.wv(line).refused(2, told);
    }
    assert_eq!(folder.draws(), 0);
    // Without gates it is too short for a circuit of the present form.
    folder.write("old.circuit", &[1, 0, 1, 0, 0, 0, 0, 0, 0, 0]);
    folder.wv("circuit old.circuit").refused(1, told);
    // A damaged old file cannot be upgraded: nothing is said of it.
    folder.write("old.circuit", &with(10, 4));
    let ended = folder.wv("circuit old.circuit");
    assert!(!ended.err.contains("upgrade"), "{ended:?}");
    ended.refused(2, "old.circuit");
    // Nor of a new file that is damaged.
    folder.write("old.circuit", &covers16()[..40]);
    let ended = folder.wv("circuit old.circuit");
    assert!(!ended.err.contains("upgrade"), "{ended:?}");
    ended.refused(1, "old.circuit");
}

/// A proof for an upgraded circuit is made and accepted.
#[test]
fn a_proof_for_an_upgraded_circuit() {
    let folder = folder("upgrade_proof", &OLD);
    folder
        .wv(UPGRADE)
        .says("upgraded to a circuit of 36 bytes\n");
    let line = "prove new.circuit hex:03 --shelf page --log log --message text:a --out proof";
    assert_eq!(folder.wv(line).status, 0);
    let check = folder.wv("check new.circuit proof --y hex:01 --message text:a");
    assert_eq!(check.status, 0, "{check:?}");
    folder
        .wv("check old.circuit proof --y hex:01 --message text:a")
        .refused(2, "`wv upgrade`");
}

#[test]
fn mistakes_with_an_old_file() {
    let folder = folder("upgrade_mistakes", &OLD);
    let before = folder.files();
    folder
        .wv("upgrade old.circuit")
        .mistaken("`--out` is needed");
    folder.wv("upgrade").mistaken("an argument is missing");
    folder.wv("upgrade missing --out k").mistaken("missing: ");
    folder.wv("upgrade old.circuit --out old.circuit").mistaken(
        "--out old.circuit is the old circuit old.circuit: the output needs a file of its own",
    );
    assert_eq!(folder.files(), before);
}
