//! The command line as a new user meets it: help, circuits and shelves.
#![deny(unused_must_use)]

mod common;

use common::{covers16, covers16_row, Folder, Y};
use std::fs;

/// Marked case m1: two inputs, one output, one gate, which is an AND.
const K: &str = "0200000001000000010000000100000002000000\
                 02000000000000000100000000000000";

#[test]
fn help_for_all() {
    let folder = Folder::new("help");
    for line in ["--help", "-h", "help"] {
        let ended = folder.wv(line);
        assert_eq!((ended.status, ended.err.as_str()), (0, ""));
        for command in wv::commands::ALL {
            assert!(ended.text().contains(&format!("wv {}", command.name)));
        }
        for status in ["\n  0  ", "\n  1  ", "\n  2  ", "\n  3  "] {
            assert!(ended.text().contains(status), "{status}");
        }
        assert_narrow(ended.text());
    }
    let ended = folder.wv("shelf --help");
    assert_eq!(ended.text().lines().count(), 3);
    folder.wv("help shelf").says(ended.text());
}

fn assert_narrow(text: &str) {
    let long = text.lines().find(|line| line.chars().count() > 80);
    assert_eq!(long, None);
}

#[test]
fn help_for_each() {
    let folder = Folder::new("help_each");
    for command in wv::commands::ALL {
        let ended = folder.wv(&format!("{} --help", command.name));
        assert_eq!((ended.status, ended.err.as_str()), (0, ""));
        let text = ended.text();
        folder.wv(&format!("help {}", command.name)).says(text);
        folder.wv(&format!("{} a -h", command.name)).says(text);
        assert!(text.starts_with(&format!("wv {} ", command.name)), "{text}");
        for option in command.options.iter().chain(command.flags) {
            assert!(
                text.contains(&format!("\n  --{option}")),
                "{option}: {text}"
            );
        }
        let example = format!("For example:\n  wv {} ", command.name);
        assert!(text.contains(&example), "{text}");
        assert_narrow(text);
    }
}

/// The examples of the help are run as they stand.
#[test]
fn the_examples_work() {
    let folder = Folder::new("examples");
    folder.write("covers16.circuit", &covers16());
    folder.write("covers16.row", &covers16_row());
    folder.write("and.txt", b"1 3\n2 1 1\n1 1\n\n2 1 0 1 2 AND\n");
    let old_k = [2, 0, 1, 0, 1, 0, 1, 0, 2, 0, 2, 0, 0, 0, 1, 0, 0, 0];
    folder.write("old.circuit", &old_k);
    let enough = include_bytes!("../../../examples/enough.circuit");
    let indate = include_bytes!("../../../examples/indate.circuit");
    folder.write("enough.circuit", enough);
    folder.write("indate.circuit", indate);
    let grade = include_bytes!("../../../examples/grade.circuit");
    folder.write("grade.circuit", grade);
    let covers16 = include_bytes!("../../../examples/covers16.statement");
    folder.write("covers16.statement", covers16);
    folder.write("values.txt", b"on_hand=1000\norder=250\n");
    for command in wv::commands::ALL {
        let line = command.example.replace("/var/lib/depot/", "");
        let ended = folder.sh(&line);
        assert_eq!((ended.status, ended.err.as_str()), (0, ""), "{line}");
    }
    assert!(folder.has("order.proof"));
}

/// Typed secrets are seen by others: the help says so where they could be typed.
#[test]
fn help_on_secrets() {
    let folder = Folder::new("help_secrets");
    for command in ["prove", "evaluate", "row", "shelf stock"] {
        let ended = folder.wv(&format!("help {command}"));
        let words: Vec<&str> = ended.text().split_whitespace().collect();
        let text = words.join(" ");
        assert!(text.contains("process list"), "{text}");
        assert!(text.contains("history"), "{text}");
    }
}

#[test]
fn which_wv_this_is() {
    let folder = Folder::new("version");
    for line in ["--version", "-V"] {
        folder.wv(line).says("wv 0.1.0\n");
    }
}

#[test]
fn the_first_mistakes() {
    let folder = Folder::with_circuit("first_mistakes");
    folder.wv("").mistaken("no command");
    folder.wv("proof").mistaken("no command `proof`");
    folder.wv("help proof").mistaken("no command `proof`");
    folder
        .wv("help circuit now")
        .mistaken("no command `circuit now`");
    folder
        .wv("help shelf now")
        .mistaken("no command `shelf now`");
    folder.wv("--verbose").mistaken("no command `--verbose`");
    folder.wv("shelf").mistaken("wv shelf new");
    folder.wv("shelf draw").mistaken("wv shelf new");
    folder.wv("circuit").mistaken("usage: wv circuit CIRCUIT");
    folder
        .wv("circuit a b")
        .mistaken("`b` is one argument too many");
    folder.wv("circuit a --size").mistaken("no option `--size`");
    folder.wv("circuit a -s").mistaken("no option `-s`");
    folder.wv("circuit a -json").mistaken("no option `-json`");
    folder.wv("evaluate a b --out").mistaken("needs a value");
    folder.wv("evaluate a b --out c --out=d").mistaken("twice");
    folder.wv("evaluate a b --raw=1").mistaken("takes no value");
    folder.wv("circuit missing").mistaken("missing: ");
    folder.wv("circuit .").mistaken(".: ");
    folder
        .wv("circuit /dev/zero")
        .mistaken("/dev/zero: more than");
    folder
        .wv_reading("evaluate - -", &covers16())
        .mistaken("standard input can be read once");
    folder
        .wv_reading("evaluate - fd:0", &covers16())
        .mistaken("standard input can be read once");
}

/// What follows `--` is no option.
#[test]
fn names_that_look_like_options() {
    let folder = Folder::new("dashes");
    folder.write("--json", &covers16());
    let sizes = "inputs 32\noutputs 17\ngates 63\nAND gates 16\n";
    folder.wv("circuit -- --json").says(sizes);
    folder.wv("circuit ./--json").says(sizes);
    folder.wv("circuit --").mistaken("an argument is missing");
}

/// 63 gates: two for the lowest bit, four for each of the 15 others, and one that
/// turns the borrow into the answer; one of each bit's gates is an AND.
#[test]
fn the_sizes_of_a_circuit() {
    let folder = Folder::with_circuit("circuit");
    let sizes = "inputs 32\noutputs 17\ngates 63\nAND gates 16\n";
    folder.wv("circuit covers16.circuit").says(sizes);
    folder.wv_reading("circuit -", &covers16()).says(sizes);
    folder
        .wv(&format!("circuit hex:{K}"))
        .says("inputs 2\noutputs 1\ngates 1\nAND gates 1\n");
    folder.wv("circuit covers16.circuit --json").says(
        "{\"inputs\":32,\"outputs\":17,\"gates\":63,\"ands\":16,\"refused\":null,\"message\":null}\n",
    );
}

/// `K` with another field, of eight digits.
fn changed(place: usize, field: u32) -> String {
    let digits = field.to_le_bytes().map(|byte| format!("{byte:02x}"));
    let mut text = K.to_string();
    text.replace_range(8 * place..8 * place + 8, &digits.concat());
    text
}

#[test]
fn refused_circuits() {
    let folder = Folder::with_circuit("refused_circuits");
    folder
        .wv_reading("circuit -", b"")
        .refused(1, "standard input");
    folder.write("cut", &covers16()[..40]);
    folder.wv("circuit cut").refused(1, "cut");
    folder.wv("evaluate cut row").refused(1, "cut");
    let k = |changed: &str| folder.wv(&format!("circuit hex:{changed}"));
    k(&changed(0, 0)).refused(2, "the typed circuit");
    k(&changed(5, 4)).refused(3, "");
    k(&changed(7, 2)).refused(5, "");
}

/// The slot, and what to do, in the sentence of every command that reads a circuit.
#[test]
fn refused_chains() {
    let folder = Folder::with_shelf("refused_chains");
    let known = [
        (
            2,
            0,
            19,
            0,
            "the head leads beyond the last slot: set it to",
        ),
        (
            1,
            2,
            19,
            1,
            "the link of slot 1 leads beyond the last slot: set it to",
        ),
        (0, 0, 20, 0, "the head is 0, but there are gates: set it to"),
        (
            1,
            1,
            21,
            1,
            "the link of slot 1 goes on after as many slots as there are: set it to 0",
        ),
    ];
    for (head, link, number, slot, told) in known {
        let head = &changed(3, head)[..64];
        let link = &changed(8, link)[64..];
        let circuit = format!("hex:{head}{link}");
        let told = format!("the typed circuit: {told}");
        folder
            .wv(&format!("circuit {circuit}"))
            .refused(number, &told);
        folder
            .wv(&format!("evaluate {circuit} hex:03"))
            .refused(number, &told);
        let message = "--message text:a";
        let prove = "--shelf page --log log --out proof";
        let line = format!("prove {circuit} hex:03 {prove} {message}");
        folder.wv(&line).refused(number, &told);
        let line = format!("check {circuit} row --y hex:01 {message}");
        folder.wv(&line).refused(number, &told);
        let json = folder.wv(&format!("circuit {circuit} --json"));
        let start = format!("{{\"slot\":{slot},\"refused\":{number},\"message\":\"refused ");
        assert!(json.text().starts_with(&start), "{json:?}");
    }
    // Two gates, of which the chain leaves out the second.
    let two = "circuit hex:0100000001000000020000000100000000000000\
               0300000000000000000000000000000003000000000000000000000000000000";
    let told = "the link of slot 1 ends the chain, but a slot is left out: set the link to";
    folder.wv(two).refused(20, told);
    assert!(!folder.has("proof"));
}

#[test]
fn outputs_of_a_witness() {
    let folder = Folder::with_circuit("evaluate");
    let line = format!("{Y}\n");
    folder.wv("evaluate covers16.circuit row").says(&line);
    folder.wv_reading("evaluate - row", &covers16()).says(&line);
    folder
        .wv_reading("evaluate covers16.circuit -", &covers16_row())
        .says(&line);
    folder
        .wv("evaluate covers16.circuit hex:e803fa00")
        .says(&line);
    // 249 on hand, 250 ordered: 2 * 250 = 500.
    folder
        .wv("evaluate covers16.circuit hex:F900FA00")
        .says("f40100\n");
    let raw = folder.wv("evaluate covers16.circuit row --raw");
    assert_eq!((raw.status, raw.out.as_slice()), (0, &[0xf5, 1, 0][..]));
    folder
        .wv("evaluate covers16.circuit row --raw --out y")
        .says("");
    assert_eq!(folder.read("y"), [0xf5, 1, 0]);
    folder.wv("evaluate covers16.circuit row --out=y").says("");
    assert_eq!(folder.read("y"), line.as_bytes());
    folder
        .wv("evaluate covers16.circuit row --out -")
        .says(&line);
}

#[test]
fn refused_witnesses() {
    let folder = Folder::with_circuit("refused_witnesses");
    folder.wv("evaluate row row").refused(1, "row");
    folder
        .wv("evaluate covers16.circuit hex:e803fa")
        .refused(6, "the witness has 3 bytes, the circuit asks for 4");
    folder
        .wv("evaluate covers16.circuit hex:")
        .refused(6, "the witness has 0 bytes");
    folder.write("short", &[1]);
    folder
        .wv("evaluate covers16.circuit short")
        .refused(6, "the witness short has 1 byte, the circuit asks for 4");
    let k = format!("evaluate hex:{K}");
    folder.wv(&format!("{k} hex:03")).says("01\n");
    folder
        .wv(&format!("{k} hex:07"))
        .refused(7, "the witness has bits set behind its 2");
    folder
        .wv("evaluate covers16.circuit hex:e803fa0")
        .mistaken("one is missing");
    folder
        .wv("evaluate covers16.circuit hex:e803fa0x")
        .mistaken("`x` is no");
    folder
        .wv("evaluate covers16.circuit row --out no/y")
        .mistaken("no/y: ");
    assert!(!folder.has("no"));
}

#[test]
fn a_shelf_from_new_to_full() {
    let folder = Folder::with_circuit("shelf");
    folder.wv("shelf new page --log log --slots 3").says("");
    assert_eq!(folder.read("page").len(), 12 + 3 * 18);
    let status = "shelf status page --log log";
    folder
        .wv(status)
        .says("slots 3\nready 0\ndraws 0\nlog 0\npage present\nempty: stock more\n");
    folder
        .wv("shelf stock page --log log --fresh 2")
        .says("stocked 2\n");
    folder
        .wv(status)
        .says("slots 3\nready 2\ndraws 0\nlog 0\npage present\n");
    folder.write("root", &[7; 16]);
    folder
        .wv("shelf stock page --log log --root root")
        .says("stocked 1\n");
    folder
        .wv(status)
        .says("slots 3\nready 3\ndraws 0\nlog 0\npage present\n");
    let full = folder.wv("shelf stock page --log log --fresh 1");
    full.refused(17, "page: every slot holds a root");
    assert_eq!(full.text(), "stocked 0\n");
}

#[test]
fn as_many_as_there_is_room_for() {
    let folder = Folder::new("room");
    folder.wv("shelf new page --log log --slots 2").says("");
    let ended = folder.wv("shelf stock page --log log --fresh 5");
    ended.refused(17, "page");
    assert_eq!(ended.text(), "stocked 2\n");
}

#[test]
fn fresh_roots_differ() {
    let folder = Folder::new("fresh");
    folder.wv("shelf new page --log log --slots 4").says("");
    folder
        .wv("shelf stock page --log log --fresh 4")
        .says("stocked 4\n");
    let page = folder.read("page");
    let roots: std::collections::HashSet<_> =
        page[12..].chunks(18).map(|slot| &slot[2..]).collect();
    assert_eq!(roots.len(), 4);
    assert!(!roots.contains(&[0; 16][..]));
}

#[test]
fn mistakes_with_a_shelf() {
    let folder = Folder::with_circuit("shelf_mistakes");
    folder.wv("shelf new page").mistaken("`--log` is needed");
    folder
        .wv("shelf new page --log log")
        .mistaken("`--slots` is needed");
    for slots in ["0", "256", "-1", "+3", "3.0", "many", "70000", "4294967299"] {
        folder
            .wv(&format!("shelf new page --log log --slots {slots}"))
            .mistaken("--slots");
    }
    folder
        .wv("shelf new - --log log --slots 3")
        .mistaken("`-` cannot");
    folder
        .wv("shelf new page --log - --slots 3")
        .mistaken("`-` cannot");
    assert!(!folder.has("page") && !folder.has("log"));
    folder
        .wv("shelf status page --log log")
        .mistaken("log: the log is not there");
    folder
        .wv("shelf new page --log no/log --slots 3")
        .mistaken("no/log: its folder is not there");
    assert!(!folder.has("page"));
    folder
        .wv("shelf new no/page --log log --slots 3")
        .mistaken("no/page: its folder is not there");
    folder.wv("shelf new page --log log --slots 3").says("");
    let stock = "shelf stock page --log log";
    folder.wv(stock).mistaken("one of `--fresh` and `--root`");
    folder
        .wv(&format!("{stock} --fresh 1 --root row"))
        .mistaken("one of");
    folder
        .wv(&format!("{stock} --fresh x"))
        .mistaken("--fresh x");
    folder
        .wv(&format!("{stock} --root row"))
        .refused(6, "--root row has 4 bytes, a root has 16");
    fs::remove_file(folder.path("log")).unwrap();
    folder
        .wv(&format!("{stock} --fresh 1"))
        .mistaken("log: the log is not there");
}

/// Neither the page nor the log of a shelf is replaced by a new one.
#[test]
fn a_shelf_is_not_replaced() {
    let folder = Folder::with_shelf("not_replaced");
    let before = folder.files();
    for flag in ["", "--lost"] {
        folder
            .wv(&format!("shelf new page --log log --slots 3 {flag}"))
            .mistaken("page: the shelf page is there already");
    }
    folder
        .wv("shelf new page --log other --slots 3")
        .mistaken("page: the shelf page is there already");
    let second = folder.wv("shelf new second --log log --slots 3");
    second.mistaken("log: the log is there already");
    second.mistaken("--lost");
    assert_eq!(folder.files(), before);
}

/// A lost page: the new one goes on from the log's count, and the old one is
/// refused from then on.
#[test]
fn a_new_page_under_the_log() {
    let folder = Folder::with_shelf("new_page");
    let proved =
        folder.wv("prove covers16.circuit row --shelf page --log log --message text:a --out proof");
    assert_eq!(proved.status, 0, "{proved:?}");
    fs::rename(folder.path("page"), folder.path("old")).unwrap();
    let new = "shelf new page --log log --slots 2";
    folder.wv(new).mistaken("if the page of this log is lost");
    assert!(!folder.has("page"));
    folder.wv(&format!("{new} --lost")).says("");
    folder
        .wv("shelf status page --log log")
        .says("slots 2\nready 0\ndraws 1\nlog 1\npage present\nempty: stock more\n");
    let old = folder.wv("shelf status old --log log");
    old.unwanted("old is from before a new page was begun under log");
    let lines =
        "slots 3\nready 2\ndraws 1\nlog 1\npage replaced: from before a new page was begun\n";
    assert_eq!(old.text(), lines);
    folder
        .wv("shelf stock old --log log --fresh 1")
        .unwanted("old is from before a new page was begun");
    folder
        .wv("shelf new page2 --log nolog --slots 2 --lost")
        .mistaken("nolog: the log is not there: `--lost` goes on with a log");
    assert!(!folder.has("page2") && !folder.has("nolog"));
}

/// One file cannot be both, whatever it is called.
#[cfg(unix)]
#[test]
fn page_and_log_are_two_files() {
    use std::os::unix::fs::symlink;
    let folder = Folder::new("two_files");
    let own = |part: &str, line: &str| {
        let before = folder.files();
        folder.wv(line).mistaken(part);
        assert_eq!(folder.files(), before, "{line}");
    };
    let absolute = folder.path("a").display().to_string();
    for log in ["a", "./a", "A", &absolute] {
        let part = format!("--log {log} is the shelf page a");
        own(&part, &format!("shelf new a --log {log} --slots 3"));
    }
    own(
        "where the shelf's next page is written",
        "shelf new a --log a.next --slots 3",
    );
    symlink("a", folder.path("link")).unwrap();
    own(
        "--log link is the shelf page a",
        "shelf new a --log link --slots 3",
    );
    folder.wv("shelf new a --log b --slots 3").says("");
    fs::hard_link(folder.path("a"), folder.path("hard")).unwrap();
    for log in ["a", "link", "hard", "./b/../a"] {
        own("", &format!("shelf stock a --log {log} --fresh 1"));
        own("", &format!("shelf status a --log {log}"));
    }
}

#[test]
fn a_full_output_is_told() {
    let folder = Folder::with_circuit("full_output");
    folder
        .sh("wv evaluate covers16.circuit row --out /dev/fd/3 3> /dev/full")
        .mistaken("/dev/fd/3: No space left");
    let ended = folder.sh("wv circuit covers16.circuit > /dev/full");
    ended.mistaken("standard output: ");
    let ended = folder.sh("wv circuit missing 2> /dev/full");
    assert_eq!(ended.status, 2, "{ended:?}");
}

/// The help of every command that meets a shelf page tells its two kinds of 15
/// apart, each with what to do.
#[test]
fn help_tells_behind_from_ahead() {
    let folder = Folder::with_circuit("help_15");
    for command in ["prove", "shelf stock", "shelf status"] {
        let ended = folder.wv(&format!("{command} --help"));
        assert_eq!(ended.status, 0);
        let text = ended.text().replace('\n', " ");
        for part in [
            "Behind: the page has fewer draws than the log counts",
            "put the present page back",
            "Ahead: it has more, so the log was set back",
            "make a new shelf with a new log",
        ] {
            assert!(text.contains(part), "{command}: {part:?} is not in {text}");
        }
    }
}
