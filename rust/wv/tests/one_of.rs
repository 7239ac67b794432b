//! One of several outputs through the command line.
#![deny(unused_must_use)]

mod common;

use common::Folder;

const GRADE: &[u8] = include_bytes!("../../../examples/grade.circuit");
const ROW: &[u8] = include_bytes!("../../../examples/grade.row");

/// Grades of 21, 30 and 33.
const ONE_OF: &str = "one-of grade.circuit --outputs hex:151e21 --out graded.circuit";

/// A folder with the example, which is a sum of three scores of 4 bits each, and a shelf.
fn folder(name: &str) -> Folder {
    let folder = Folder::with_shelf(name);
    folder.write("grade.circuit", GRADE);
    folder.write("grade.row", ROW);
    folder
}

/// Builds, and gives the length that was told.
fn built(folder: &Folder, line: &str, listed: &str) -> usize {
    let ended = folder.wv(line);
    assert_eq!((ended.status, ended.err.as_str()), (0, ""), "{ended:?}");
    let len = folder.read("graded.circuit").len();
    let told = format!("asks for {listed}, in a circuit of {len} bytes\n");
    assert_eq!(ended.text(), told);
    len
}

#[test]
fn one_of_three_grades() {
    let folder = folder("one_of");
    let len = built(&folder, ONE_OF, "3 listed outputs");
    // 36 gates, 6 outputs, 3 entries: 36 + 6 + 3 * 7 gates at most.
    assert!(len <= 20 + 16 * 63, "{len}");
    let sizes = folder.wv("circuit graded.circuit");
    assert!(sizes.text().starts_with("inputs 12\noutputs 1\n"));
    folder.wv("evaluate grade.circuit grade.row").says("21\n");
    folder.wv("evaluate graded.circuit grade.row").says("01\n");
    // 6 + 9 + 6 is 21, 15 + 15 + 0 is 30, 9 + 12 + 13 is 34.
    for (row, expected) in [("9606", "01\n"), ("ff00", "01\n"), ("c90d", "00\n")] {
        let line = format!("evaluate graded.circuit hex:{row}");
        folder.wv(&line).says(expected);
    }
    // A list in a file, and from a pipe; one grade alone, one twice.
    folder.write("grades", &[21, 30, 33]);
    let file = folder.read("graded.circuit");
    built(
        &folder,
        &ONE_OF.replace("hex:151e21", "grades"),
        "3 listed outputs",
    );
    assert_eq!(folder.read("graded.circuit"), file);
    let piped = folder.wv_reading("one-of grade.circuit --outputs - --out -", &[21, 30, 33]);
    assert_eq!((piped.status, &piped.out), (0, &file));
    built(&folder, &ONE_OF.replace("151e21", "22"), "1 listed output");
    folder.wv("evaluate graded.circuit grade.row").says("00\n");
    built(
        &folder,
        &ONE_OF.replace("151e21", "2121"),
        "2 listed outputs",
    );
    folder.wv("evaluate graded.circuit grade.row").says("01\n");
}

/// Rows of different grades are proved with the same y.
#[test]
fn which_one_is_not_told() {
    let folder = folder("one_of_proof");
    built(&folder, ONE_OF, "3 listed outputs");
    folder.write("other.row", &[0x96, 6]);
    for row in ["grade.row", "other.row"] {
        let line = format!(
            "prove graded.circuit {row} --shelf page --log log --message text:a --out proof"
        );
        let proved = folder.wv(&line);
        assert_eq!((proved.status, proved.err.as_str()), (0, ""));
        assert!(proved.text().starts_with("proved 01 in "), "{proved:?}");
        let check = folder.wv("check graded.circuit proof --y hex:01 --message text:a");
        assert_eq!(check.status, 0, "{check:?}");
    }
    // A grade that is not listed: the claim is refused, and no root is drawn.
    folder.write("wrong.row", &[0xc9, 13]);
    let before = folder.draws();
    let line = "prove graded.circuit wrong.row --shelf page --log log --message text:a \
                --y hex:01 --out proof";
    let refused = folder.wv(line);
    assert_eq!(refused.status, 1, "{refused:?}");
    assert!(refused.err.starts_with("wv: refused 10: "), "{refused:?}");
    assert_eq!(folder.draws(), before);
}

/// The list, the number and what is told; no file is written.
#[test]
fn refused_lists() {
    let folder = folder("one_of_refused");
    folder.write("long", &[0; 17]);
    folder.write("unused", &[1, 2, 64, 128]);
    folder.write("seven", &[0; 7]);
    folder.write("cut", &GRADE[..40]);
    let before = folder.files();
    let known = [
        (
            "grade.circuit",
            "hex:",
            30,
            "the list has 0 bytes, an output of the circuit has 1: 1 to 16 are listed",
        ),
        (
            "grade.circuit",
            "long",
            30,
            "the list long has 17 bytes, an output of the circuit has 1: 1 to 16 are listed",
        ),
        (
            "covers16.circuit",
            "seven",
            6,
            "the list seven has 7 bytes, an output of the circuit has 3: list whole ones",
        ),
        (
            "grade.circuit",
            "unused",
            7,
            "output 3 of the list unused has bits set behind its 6, in its last byte",
        ),
        (
            "covers16.circuit",
            "hex:f50102",
            7,
            "output 1 of the list has bits set behind its 17",
        ),
        ("cut", "long", 1, "cut"),
    ];
    for (circuit, list, number, told) in known {
        let line = format!("one-of {circuit} --outputs {list} --out built");
        folder.wv(&line).refused(number, told);
    }
    assert_eq!(folder.files(), before);
}

/// 99,998 gates, one output and one entry count for 100,001.
#[test]
fn too_many_gates() {
    let folder = Folder::new("one_of_gates");
    let gates = 99_998;
    let mut fields = vec![1, 1, gates, 1, 0];
    for slot in 1..=gates {
        fields.extend([3, 0, 0, (slot + 1) % (gates + 1)]);
    }
    let circuit: Vec<u8> = fields
        .iter()
        .flat_map(|field: &u32| field.to_le_bytes())
        .collect();
    folder.write("large", &circuit);
    let before = folder.files();
    folder
        .wv("one-of large --outputs hex:01 --out built")
        .refused(2, "100001 gates are counted, at most 100000: list fewer");
    assert_eq!(folder.files(), before);
}

#[test]
fn mistakes_with_a_list() {
    let folder = folder("one_of_mistakes");
    folder.write("grades", &[21, 30, 33]);
    let before = folder.files();
    let line = |rest: &str| format!("one-of grade.circuit {rest}");
    folder
        .wv(&line("--outputs hex:21"))
        .mistaken("`--out` is needed");
    folder
        .wv(&line("--out k"))
        .mistaken("`--outputs` is needed");
    folder
        .wv("one-of --outputs hex:21 --out k")
        .mistaken("an argument is missing");
    folder
        .wv(&line("--outputs missing --out k"))
        .mistaken("missing: ");
    folder
        .wv(&line("--outputs hex:2 --out k"))
        .mistaken("one is missing");
    folder
        .wv(&line("--outputs grades --out grades"))
        .mistaken("--out grades is the list grades: the output needs a file of its own");
    folder
        .wv(&line("--outputs grades --out grade.circuit"))
        .mistaken("--out grade.circuit is the circuit grade.circuit");
    folder
        .wv(&line("--outputs grades --out no/k"))
        .mistaken("no/k: ");
    assert_eq!(folder.files(), before);
}
