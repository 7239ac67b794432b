//! Two statements on one row through the command line.
#![deny(unused_must_use)]

mod common;

use common::Folder;

const ENOUGH: &[u8] = include_bytes!("../../../examples/enough.circuit");
const INDATE: &[u8] = include_bytes!("../../../examples/indate.circuit");
const BOTH: &[u8] = include_bytes!("../../../examples/both.circuit");
const GOODS: &[u8] = include_bytes!("../../../examples/both.row");

/// 1 and an order of 250 in 17 bits, then 1 and the day 20,000 in 17 bits: as a number
/// 501 + 40,001 * 2^17.
const Y: &str = "f501823801";

const JOIN: &str = "join enough.circuit indate.circuit --out both.circuit";
const TOLD: &str = "joined to a circuit of 2168 bytes\n";

/// A folder with the examples and a shelf.
fn folder(name: &str) -> Folder {
    let folder = Folder::with_shelf(name);
    folder.write("enough.circuit", ENOUGH);
    folder.write("indate.circuit", INDATE);
    folder.write("goods.row", GOODS);
    folder
}

/// A circuit of these fields.
fn circuit(fields: &[u32]) -> Vec<u8> {
    fields
        .iter()
        .flat_map(|field| field.to_le_bytes())
        .collect()
}

/// No gates, and as many outputs as asked for, all of them the first input.
fn of_outputs(inputs: u32, outputs: usize) -> Vec<u8> {
    circuit(&[&[inputs, outputs as u32, 0, 0], &vec![0; outputs][..]].concat())
}

/// The script of the examples makes the joined circuit of the gates of both.
#[test]
fn two_circuits_are_joined() {
    let folder = folder("join");
    folder.wv(JOIN).says(TOLD);
    assert_eq!(folder.read("both.circuit"), BOTH);
    folder
        .wv("circuit both.circuit")
        .says("inputs 64\noutputs 34\ngates 126\nAND gates 32\n");
    folder
        .wv("evaluate both.circuit goods.row")
        .says(&format!("{Y}\n"));
    folder.write("both.circuit", b"old");
    folder.wv(JOIN).says(TOLD);
    assert_eq!(folder.read("both.circuit"), BOTH);
    let piped = folder.wv_reading("join - indate.circuit --out -", ENOUGH);
    assert_eq!((piped.status, &piped.out[..]), (0, BOTH));
    assert_eq!(piped.err, "");
    // With itself: once more as many outputs.
    folder
        .wv("join enough.circuit enough.circuit --out twice.circuit")
        .says(TOLD);
    folder
        .wv("evaluate twice.circuit goods.row")
        .says("f501ea0300\n");
}

/// One proof for both statements; it holds for no other order and no other day.
#[test]
fn one_proof_for_both() {
    let folder = folder("join_proof");
    folder.wv(JOIN).says(TOLD);
    let line = "prove both.circuit goods.row --shelf page --log log --message text:a --out proof";
    let proved = folder.wv(line);
    assert_eq!((proved.status, proved.err.as_str()), (0, ""));
    assert!(proved.text().starts_with(&format!("proved {Y} in ")));
    let check = "check both.circuit proof --message text:a --y";
    let accepted = folder.wv(&format!("{check} hex:{Y}"));
    assert_eq!(accepted.status, 0, "{accepted:?}");
    // An order of 251, and the day 20,001.
    for other in ["f701823801", "f501863801"] {
        let refused = folder.wv(&format!("{check} hex:{other}"));
        assert_eq!(refused.status, 1, "{refused:?}");
    }
    for part in ["enough", "indate"] {
        let line = check.replace("both", part);
        let refused = folder.wv(&format!("{line} hex:f50100"));
        assert_eq!(refused.status, 1, "{refused:?}");
    }
}

/// The first circuit, the second, the number and what is told; no file is written.
#[test]
fn refused_circuits() {
    let small = circuit(&[64, 1, 1, 1, 64, 2, 0, 1, 0]);
    let mut broken = small.clone();
    broken[20] = 9;
    let many = [circuit(&[64, 1, 100_000, 1, 0]), {
        let gates = (2..=100_001).map(|next| circuit(&[3, 0, 0, next % 100_001]));
        gates.flatten().collect()
    }]
    .concat();
    let old = [2, 0, 1, 0, 1, 0, 1, 0, 2, 0, 2, 0, 0, 0, 1, 0, 0, 0];
    let looped = circuit(&[64, 1, 1, 1, 64, 2, 0, 1, 1]);
    let known: [(&[u8], &[u8], u32, &str); 9] = [
        (&broken, &ENOUGH[..9], 3, "first"),
        (&small, &ENOUGH[..9], 1, "second"),
        (&small, &looped, 21, "second: the link of slot 1 goes on"),
        (&old, &small, 2, "first: it is a circuit of the old form"),
        (
            &small,
            &of_outputs(1, 256),
            25,
            "the first has 64 inputs, the second 1: both must take the same row",
        ),
        (
            &of_outputs(1, 1),
            &small,
            25,
            "the first has 1 input, the second 64",
        ),
        (
            &small,
            &of_outputs(64, 256),
            2,
            "together they have 257 outputs, at most 256",
        ),
        (
            &many,
            &small,
            2,
            "together they have 100001 gates, at most 100000",
        ),
        (&of_outputs(64, 200), &of_outputs(64, 200), 2, "400 outputs"),
    ];
    for (first, second, number, told) in known {
        let folder = Folder::new("join_refused");
        folder.write("first", first);
        folder.write("second", second);
        let before = folder.files();
        folder
            .wv("join first second --out both")
            .refused(number, told);
        assert_eq!(folder.files(), before);
    }
}

#[test]
fn mistakes_with_two_circuits() {
    let folder = folder("join_mistakes");
    let before = folder.files();
    folder
        .wv("join enough.circuit indate.circuit")
        .mistaken("`--out` is needed");
    folder
        .wv("join enough.circuit --out k")
        .mistaken("an argument is missing");
    folder
        .wv("join enough.circuit missing --out k")
        .mistaken("missing: ");
    for (out, what) in [("enough", "enough.circuit"), ("indate", "indate.circuit")] {
        let line = format!("join enough.circuit indate.circuit --out {out}.circuit");
        let told = format!("--out {what} is the circuit {what}: the output needs a file");
        folder.wv(&line).mistaken(&told);
    }
    folder
        .wv("join enough.circuit indate.circuit --out no/k")
        .mistaken("no/k: ");
    folder
        .wv_reading("join - - --out k", ENOUGH)
        .mistaken("standard input can be read once");
    assert_eq!(folder.files(), before);
}
