//! Every small circuit through the command line.
#![deny(unused_must_use)]

mod common;

use common::Folder;

/// One input and one gate: the inputs, outputs, gates and head, the output's wire, the
/// kind, and three zeros.
fn six() -> Vec<String> {
    let files = [0, 1].map(|output| [1, 2, 3].map(|kind| [1, 1, 1, 1, output, kind, 0, 0, 0_u32]));
    let bytes = files.concat().into_iter().map(|fields| {
        let bytes = fields.map(u32::to_le_bytes).concat();
        bytes.iter().map(|byte| format!("{byte:02x}")).collect()
    });
    bytes.collect()
}

#[test]
fn all_of_them() {
    let folder = Folder::new("small");
    let lines: String = six().iter().map(|line| format!("{line}\n")).collect();
    folder.wv("small --inputs 1 --gates 1").says(&lines);
    for (inputs, gates, count) in [
        (1, 0, 1),
        (1, 1, 6),
        (1, 2, 180),
        (2, 0, 2),
        (2, 1, 30),
        (2, 2, 1680),
    ] {
        let line = format!("small --inputs {inputs} --gates {gates}");
        let ended = folder.wv(&line);
        assert_eq!((ended.status, ended.err.as_str()), (0, ""));
        let listed: Vec<&str> = ended.text().lines().collect();
        assert_eq!(listed.len(), count);
        // The digits are in the order of the bytes.
        assert!(listed.windows(2).all(|pair| pair[0] < pair[1]));
        folder
            .wv(&format!("{line} --count"))
            .says(&format!("{count}\n"));
    }
}

#[test]
fn one_of_them() {
    let folder = Folder::new("small_one");
    for (place, digits) in six().into_iter().enumerate() {
        let line = format!("small --inputs 1 --gates 1 --place {place}");
        folder.wv(&line).says(&format!("{digits}\n"));
        let told = "wrote a circuit of 36 bytes\n";
        folder.wv(&format!("{line} --out k")).says(told);
        let found: String = folder
            .read("k")
            .iter()
            .map(|byte| format!("{byte:02x}"))
            .collect();
        assert_eq!(found, digits);
        let piped = folder.wv(&format!("{line} --out -"));
        assert_eq!((piped.status, piped.out), (0, folder.read("k")));
        folder.wv(&format!("circuit hex:{digits}")).says(&format!(
            "inputs 1\noutputs 1\ngates 1\nAND gates {}\n",
            u8::from(place % 3 == 1)
        ));
    }
}

/// Behind the last one there is nothing to write.
#[test]
fn the_last_has_passed() {
    let folder = Folder::new("small_passed");
    for place in ["6", "7", "4294967296", "18446744073709551615"] {
        let told = format!("the last has passed: --place {place} is behind place 5");
        for out in ["", "--out k", "--out -"] {
            let line = format!("small --inputs 1 --gates 1 --place {place} {out}");
            let ended = folder.wv(&line);
            ended.unwanted(&told);
            assert_eq!(ended.out, b"");
        }
    }
    assert!(!folder.has("k"));
}

#[test]
fn other_sizes() {
    let folder = Folder::new("small_sizes");
    for (inputs, gates, told) in [
        ("0", "0", "--inputs 0: 1 or 2"),
        ("3", "9", "--inputs 3: 1 or 2"),
        ("4294967295", "0", "--inputs 4294967295: 1 or 2"),
        ("2", "3", "--gates 3: 0 to 2"),
    ] {
        let line = format!("small --inputs {inputs} --gates {gates}");
        for more in ["", "--count", "--place 0", "--place 0 --out k"] {
            folder.wv(&format!("{line} {more}")).refused(29, told);
        }
    }
    assert!(!folder.has("k"));
}

#[test]
fn mistakes_with_small_circuits() {
    let folder = Folder::new("small_mistakes");
    let one = "small --inputs 1 --gates 1";
    folder
        .wv("small --gates 1")
        .mistaken("`--inputs` is needed");
    folder
        .wv("small --inputs 1")
        .mistaken("`--gates` is needed");
    folder
        .wv("small 1 1")
        .mistaken("`1` is one argument too many");
    folder
        .wv(&format!("{one} --out k"))
        .mistaken("`--out` takes one circuit: `--place` says which");
    folder
        .wv(&format!("{one} --count --place 1"))
        .mistaken("one of `--count` and `--place`");
    for place in ["-1", "x", "18446744073709551616", "+1", "1.0"] {
        folder
            .wv(&format!("{one} --place {place}"))
            .mistaken(&format!("--place {place}: this is not a whole number"));
    }
    folder
        .wv(&format!("{one} --place 1 --out no/k"))
        .mistaken("no/k: ");
    assert!(folder.files().is_empty());
}
