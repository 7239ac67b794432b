//! Arguments that are no text, and where bytes come from.
#![deny(unused_must_use)]
#![cfg(target_os = "linux")]

mod common;

use common::{covers16, Folder, Y};
use std::ffi::OsStr;
use std::os::unix::ffi::OsStrExt;

const ACCEPTED: &str = "accepted, M 145, tau 66, n 8, soundness 128.0 bits\n";

fn name(bytes: &[u8]) -> &OsStr {
    OsStr::from_bytes(bytes)
}

/// A message typed as text is the bytes that were typed, and no others.
#[test]
fn text_that_is_no_utf8() {
    let folder = Folder::with_shelf("text");
    let made = folder.wv_words(&[
        b"prove",
        b"covers16.circuit",
        b"row",
        b"--shelf=page",
        b"--log=log",
        b"--message",
        b"text:\xff\xfe=\xc3",
        b"--out=proof",
    ]);
    assert_eq!((made.status, made.err.as_str()), (0, ""));
    let check = "check covers16.circuit proof --y hex:f50100 --message";
    folder.wv(&format!("{check} hex:fffe3dc3")).says(ACCEPTED);
    let shown = "\u{fffd}\u{fffd}=\u{fffd}";
    let lossy = folder.wv(&format!("{check} text:{shown}"));
    assert_eq!(lossy.status, 1, "{lossy:?}");
    folder.write("message", b"\xff\xfe=\xc3");
    folder.wv(&format!("{check} message")).says(ACCEPTED);
}

#[test]
fn names_that_are_no_utf8() {
    let folder = Folder::with_circuit("names");
    folder.write(name(b"c\xff"), &covers16());
    folder.write(name(b"row\xfe"), &folder.read("row"));
    let evaluate = |out: &[&[u8]]| {
        let words: &[&[u8]] = &[b"evaluate", b"c\xff", b"row\xfe"];
        folder.wv_words(&[words, out].concat())
    };
    evaluate(&[b"--out=y\xff"]).says("");
    assert_eq!(folder.read(name(b"y\xff")), format!("{Y}\n").as_bytes());
    evaluate(&[b"--out", b"y\xfd=1"]).says("");
    assert_eq!(folder.read(name(b"y\xfd=1")), format!("{Y}\n").as_bytes());
    evaluate(&[b"--out=y\xfc=2"]).says("");
    assert!(folder.has(name(b"y\xfc=2")));
    let names = folder.files();
    assert_eq!(names.len(), 7, "{names:?}");
}

#[test]
fn a_shelf_whose_names_are_no_utf8() {
    let folder = Folder::with_circuit("shelf_names");
    let new: &[&[u8]] = &[
        b"shelf",
        b"new",
        b"page\xff",
        b"--log=log\xff",
        b"--slots=2",
    ];
    folder.wv_words(new).says("");
    folder
        .wv_words(new)
        .mistaken("page\\xff: the shelf page is there already");
    let stock: &[&[u8]] = &[
        b"shelf",
        b"stock",
        b"page\xff",
        b"--log",
        b"log\xff",
        b"--fresh=1",
    ];
    folder.wv_words(stock).says("stocked 1\n");
    assert_eq!(folder.read(name(b"page\xff")).len(), 12 + 2 * 18);
    let same: &[&[u8]] = &[b"shelf", b"status", b"page\xff", b"--log=./page\xff"];
    let part = "--log ./page\\xff is the shelf page page\\xff";
    folder.wv_words(same).mistaken(part);
}

/// Messages show such names escaped, and nothing that a terminal obeys.
#[test]
fn escaped_names() {
    let folder = Folder::with_circuit("escaped");
    folder
        .wv_words(&[b"circuit", b"no\xff\x1b[2J"])
        .mistaken("no\\xff\\u{1b}[2J: No such file");
    folder
        .wv_words(&[b"cir\xffcuit"])
        .mistaken("no command `cir\\xffcuit`");
    folder
        .wv_words(&[b"circuit", b"a", b"--\xff"])
        .mistaken("no option `--\\xff`");
    folder
        .wv_words(&[b"shelf", b"stock", b"p", b"--log=l", b"--fresh=\xff"])
        .mistaken("--fresh \\xff: this is not a whole number");
    folder
        .wv_words(&[b"evaluate", b"covers16.circuit", b"hex:0\xff"])
        .mistaken("`\\xff` is no hexadecimal digit");
    let json = folder.wv_words(&[b"circuit", b"\"no\\\xff\"", b"--json"]);
    let message = r#""\"no\\\\xff\": No such file or directory (os error 2); what is typed begins with `text:` or `hex:`""#;
    let object = format!("{{\"refused\":null,\"message\":{message}}}\n");
    assert_eq!((json.status, json.text()), (2, object.as_str()));
}

#[test]
fn open_descriptors() {
    let folder = Folder::with_circuit("descriptors_read");
    let line = format!("{Y}\n");
    folder
        .sh("wv evaluate fd:3 fd:4 3< covers16.circuit 4< row")
        .says(&line);
    folder
        .sh("cat row | wv evaluate covers16.circuit fd:0")
        .says(&line);
    folder
        .sh("{ wv evaluate covers16.circuit fd:3 3<&0 < /dev/null; } < row")
        .says(&line);
    folder
        .sh("wv evaluate covers16.circuit /dev/fd/3 3< row")
        .says(&line);
    folder
        .sh("wv evaluate fd:3 fd:3 3< covers16.circuit")
        .mistaken("fd:3 can be read once");
    folder
        .wv("evaluate covers16.circuit fd:9")
        .mistaken("fd:9: ");
    for wrong in ["fd:", "fd:x", "fd:-1", "fd:99999999999"] {
        folder
            .wv(&format!("evaluate covers16.circuit {wrong}"))
            .mistaken(&format!("{wrong}: "));
    }
}

/// A descriptor gives what is left of it, as to every other program.
#[test]
fn the_rest_of_a_descriptor() {
    let folder = Folder::with_circuit("rest");
    folder.write("both", &[b"x".as_slice(), &folder.read("row")].concat());
    folder
        .sh("exec 3< both; dd bs=1 count=1 <&3 2> /dev/null; wv evaluate covers16.circuit fd:3")
        .says(&format!("x{Y}\n"));
}

/// A root that is typed would be seen by others.
#[test]
fn roots_are_not_typed() {
    let folder = Folder::new("roots");
    folder.wv("shelf new page --log log --slots 4").says("");
    folder.write("root", b"\xff23456789abcdef0");
    let before = folder.files();
    let stock = "shelf stock page --log log --root";
    let typed = [
        "hex:000102030405060708090a0b0c0d0e0f",
        "text:0123456789abcdef",
    ];
    for root in typed {
        let ended = folder.wv(&format!("{stock} {root}"));
        ended.mistaken("--root is a secret and is not typed");
        ended.mistaken("process list");
        ended.mistaken("history");
        assert!(!ended.err.contains("0123456789") && !ended.err.contains("0102"));
    }
    assert_eq!(folder.files(), before);
    folder.wv(&format!("{stock} root")).says("stocked 1\n");
    folder
        .wv_reading(&format!("{stock} -"), &[1; 16])
        .says("stocked 1\n");
    folder
        .sh(&format!("wv {stock} fd:3 3< root"))
        .says("stocked 1\n");
    folder
        .wv_reading(&format!("{stock} -"), &[1; 17])
        .refused(6, "--root standard input has 17 bytes, a root has 16");
    let page = folder.read("page");
    let count = |root: &[u8]| page.windows(16).filter(|bytes| *bytes == root).count();
    assert_eq!(count(b"\xff23456789abcdef0"), 2);
}
