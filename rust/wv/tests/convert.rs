//! Bristol Fashion texts through the command line.
#![deny(unused_must_use)]

mod common;

use common::Folder;

/// Circuit K of the paper as text, and its file.
const TEXT: &str = "1 3\n2 1 1\n1 1\n\n2 1 0 1 2 AND\n";
const K: [u8; 36] = [
    2, 0, 0, 0, 1, 0, 0, 0, 1, 0, 0, 0, 1, 0, 0, 0, // I, O, G, head
    2, 0, 0, 0, // the output
    2, 0, 0, 0, 0, 0, 0, 0, 1, 0, 0, 0, 0, 0, 0, 0, // slot 1
];

const CONVERT: &str = "convert and.txt --out and.circuit";

/// A folder with this text in `and.txt`.
fn folder(name: &str, text: &str) -> Folder {
    let folder = Folder::new(name);
    folder.write("and.txt", text.as_bytes());
    folder
}

#[test]
fn a_text_is_converted() {
    let folder = folder("convert", TEXT);
    let told = "converted to a circuit of 36 bytes\n";
    folder.wv(CONVERT).says(told);
    assert_eq!(folder.read("and.circuit"), K);
    folder
        .wv("circuit and.circuit")
        .says("inputs 2\noutputs 1\ngates 1\nAND gates 1\n");
    folder.wv("evaluate and.circuit hex:03").says("01\n");
    folder.write("and.circuit", b"old");
    folder.wv(&format!("{CONVERT} --tidy")).says(told);
    assert_eq!(folder.read("and.circuit"), K);
    let piped = folder.wv_reading("convert - --out -", TEXT.as_bytes());
    assert_eq!((piped.status, &piped.out[..]), (0, &K[..]));
    assert_eq!(piped.err, "");
}

/// The text, the number and where it is told to be; no file is written.
#[test]
fn refused_texts() {
    let known = [
        ("", 22, "and.txt: in its first three lines\n"),
        (
            "1 3\n2 1 1\n1 2 \n2 1 0 1 2 AND\n",
            22,
            "in its first three lines; `--tidy` mends",
        ),
        (
            "1 3\n2 1 1\n\n1 1\n2 1 0 2 2 AND\n",
            22,
            "and.txt: line 5\n",
        ),
        (
            "1 3\n2 1 1\n1 1\n2 1 0 1 2 AND",
            22,
            "and.txt: line 4; `--tidy` mends the ends of lines\n",
        ),
        (
            "1 3\n2 1 1\n1 1\n",
            22,
            "and.txt: it ends before its last gate\n",
        ),
        (
            "1 3\n2 1 1\n1 1\n2 1 0 1 2 AND \n",
            23,
            "and.txt: line 4; `--tidy` mends the ends of lines\n",
        ),
        (
            "1 3\n2 1 1\n1 1\n\n\n2 1 0 1 2 EQ\n",
            23,
            "and.txt: line 6; write a gate of another kind as some of these\n",
        ),
        ("100001 3\n", 24, "and.txt: line 1; a circuit has 1 to 512"),
        (
            "\n1 514\n1 513\n",
            24,
            "and.txt: line 3; a circuit has 1 to 512",
        ),
        (
            "1 3\n2 1 1\n0\n",
            24,
            "and.txt: line 3; a circuit has 1 to 512",
        ),
    ];
    for (text, number, told) in known {
        let folder = folder("convert_refused", text);
        let before = folder.files();
        folder.wv(CONVERT).refused(number, told);
        assert_eq!(folder.files(), before);
    }
    let typed = Folder::new("convert_typed");
    typed
        .wv("convert text:XOR --out k")
        .refused(22, "the typed text: ");
}

/// Ends of lines as published files may have them.
#[test]
fn tidied_texts() {
    let lines = TEXT.replace('\n', " \r\n");
    let known = [
        (
            lines.clone(),
            "note: and.txt: took spaces and CR off the ends of 5 lines\n",
        ),
        (
            TEXT.trim_end().to_string(),
            "note: and.txt: added the last LF\n",
        ),
        (
            lines.trim_end().to_string() + "\r",
            "note: and.txt: took spaces and CR off the ends of 5 lines and added the last LF\n",
        ),
    ];
    for (text, told) in known {
        let folder = folder("convert_tidy", &text);
        let refused = folder.wv(CONVERT);
        assert_eq!(refused.status, 1, "{refused:?}");
        assert!(refused.err.contains("`--tidy`"), "{refused:?}");
        assert!(!folder.has("and.circuit"));
        let ended = folder.wv(&format!("{CONVERT} --tidy"));
        assert_eq!((ended.status, ended.err), (0, format!("wv: {told}")));
        assert_eq!(folder.read("and.circuit"), K);
        assert_eq!(folder.read("and.txt"), text.as_bytes(), "the text stays");
    }
}

/// What is no end of a line is not mended, and the line is that of the file.
#[test]
fn a_tidied_text_that_is_refused() {
    let text = "1 3\r\n \r\n2 1 1\r\n1 1\r\n2 1 0 1 2  AND\r\n";
    let folder = folder("convert_untidy", text);
    let ended = folder.wv(&format!("{CONVERT} --tidy"));
    assert_eq!(ended.status, 1, "{ended:?}");
    let lines: Vec<&str> = ended.err.lines().collect();
    assert_eq!(
        lines[0],
        "wv: note: and.txt: took spaces and CR off the ends of 5 lines"
    );
    assert!(
        lines[1].starts_with("wv: refused 22: and.txt: line 5 ("),
        "{ended:?}"
    );
    assert_eq!(lines.len(), 2);
}

#[test]
fn mistakes_with_a_text() {
    let folder = folder("convert_mistakes", TEXT);
    let before = folder.files();
    folder.wv("convert and.txt").mistaken("`--out` is needed");
    folder.wv("convert").mistaken("an argument is missing");
    folder.wv("convert missing --out k").mistaken("missing: ");
    folder
        .wv("convert and.txt --out and.txt")
        .mistaken("--out and.txt is the text and.txt: the output needs a file of its own");
    folder.wv("convert and.txt --out no/k").mistaken("no/k: ");
    assert_eq!(folder.files(), before);
}
