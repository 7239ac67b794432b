//! The command line as a new user meets it: several proofs checked side by side.
#![deny(unused_must_use)]

mod common;

use common::{covers16, Folder};
use wv::at_least::{at_least, row};

const BITS: &str = "--bits 0";

/// A folder with three proofs: `long`, `short` and `wide`, the last of another circuit.
/// The row is 1000 on hand and 250 ordered in each.
fn with_proofs(name: &str) -> Folder {
    let folder = Folder::with_shelf(name);
    folder.write("covers32.circuit", &at_least(32, true));
    folder.write("wide.row", &row(32, 1000, 250));
    let all = [
        ("long", "covers16.circuit row", 40),
        ("short", "covers16.circuit row", 3),
        ("wide", "covers32.circuit wide.row", 12),
    ];
    for (name, inputs, m) in all {
        let made = folder.wv(&format!(
            "prove {inputs} --shelf page --log log --out {name} --message text:{name} \
             --instances {m} --chosen 2 --parties 2"
        ));
        made.tells("bits of soundness");
    }
    folder
}

/// What y says of 250: 1 + 2 * 250 in 17 and in 33 bits.
const Y16: &str = "hex:f50100";
const Y32: &str = "hex:f501000000";

const ALL: &str = "check covers16.circuit long covers16.circuit short covers32.circuit wide \
                   --y hex:f50100 --y hex:f50100 --y hex:f501000000 \
                   --message text:long --message text:short --message text:wide";

fn accepted(name: &str, m: u32, bits: &str) -> String {
    format!("{name}: accepted, M {m}, tau 2, n 2, soundness {bits} bits\n")
}

/// Bits of formula (1) for tau 2 and n 2: 1/3 is the most for M 3, and 1/4 for M 12 and 40,
/// where all preprocessings are right.
fn all_accepted() -> [String; 3] {
    [
        accepted("short", 3, "1.5"),
        accepted("wide", 12, "2.0"),
        accepted("long", 40, "2.0"),
    ]
}

/// The short proofs are finished before the long one, which came first.
#[test]
fn a_line_each_in_the_order_of_their_ends() {
    let folder = with_proofs("several");
    let lines = all_accepted().concat();
    for quota in ["--quota 1", "--quota 7", "--quota 8"] {
        folder.wv(&format!("{ALL} {BITS} {quota}")).says(&lines);
    }
    // All are finished in one call, and then come in the order of the line.
    let [short, wide, long] = all_accepted();
    let together = [long, short, wide].concat();
    folder.wv(&format!("{ALL} {BITS}")).says(&together);
    folder
        .wv(&format!("{ALL} {BITS} --quota 512"))
        .says(&together);
    let one = format!("check covers16.circuit short --y {Y16} --message text:short {BITS}");
    folder
        .wv(&format!("{one} --quota 2"))
        .says(&accepted("short", 3, "1.5"));
    folder
        .wv(&one)
        .says("accepted, M 3, tau 2, n 2, soundness 1.5 bits\n");
}

/// The words may stand in any order; one y and one message are for all.
#[test]
fn once_for_all() {
    let folder = with_proofs("once_for_all");
    let pair = "covers16.circuit short ";
    let sixteen = pair.repeat(16);
    let line = accepted("short", 3, "1.5");
    folder
        .wv(&format!(
            "check {BITS} --y {Y16} {sixteen} --message text:short"
        ))
        .says(&line.repeat(16));
    folder
        .wv(&format!(
            "check --y {Y16} covers16.circuit short --message text:short covers16.circuit \
             long --message text:long {BITS}"
        ))
        .says(&[accepted("short", 3, "1.5"), accepted("long", 40, "2.0")].concat());
    folder
        .wv(&format!(
            "check {sixteen} {pair} --y {Y16} --message text:short"
        ))
        .mistaken("is one argument too many");
    let typed = format!("check covers16.circuit - covers16.circuit hex:00 --y {Y16}");
    let proof = folder.read("short");
    let ended = folder.wv_reading(&format!("{typed} --message text:short {BITS}"), &proof);
    assert!(
        ended.text().starts_with("proof 2: refused 11: "),
        "{ended:?}"
    );
    assert!(
        ended
            .text()
            .ends_with(&accepted("standard input", 3, "1.5")),
        "{ended:?}"
    );
}

/// One that does not hold is told, and the others are checked all the same.
#[test]
fn one_of_several_is_refused() {
    let folder = with_proofs("one_refused");
    let [short, _, long] = all_accepted();
    let proof = folder.read("wide");
    let circuit = at_least(32, true);
    // Byte 70 is of an opened node: only h* shows that it was changed.
    let mut changed = proof.clone();
    changed[70] ^= 1;
    let changes = [
        ("wide", proof[1..].to_vec(), 11),
        ("wide", proof[..proof.len() - 1].to_vec(), 12),
        ("wide", changed, 13),
        ("covers32.circuit", circuit[..circuit.len() - 1].to_vec(), 1),
    ];
    let before = folder.files();
    for (file, bytes, number) in changes {
        folder.write(file, &bytes);
        let ended = folder.wv(&format!("{ALL} {BITS} --quota 1"));
        assert_eq!(ended.status, 1, "{ended:?}");
        assert_eq!(ended.err, "wv: refused: 1 of 3 proofs\n");
        let sentence = wivulameno::Refusal::of(number).sentence();
        let (start, end) = (
            format!("wide: refused {number}: "),
            format!(" ({sentence})\n"),
        );
        let mut lines: Vec<&str> = ended.text().split_inclusive('\n').collect();
        // On entry it is refused before the others are checked, else after twelve instances.
        let told = lines.remove(if number == 13 { 1 } else { 0 });
        assert!(told.starts_with(&start), "{start:?}, {ended:?}");
        assert!(told.ends_with(&end), "{end:?}, {ended:?}");
        assert_eq!(
            told.matches("wide").count(),
            if number == 11 { 2 } else { 1 }
        );
        assert_eq!(lines, [&short[..], &long]);
        folder.write(file, &before[std::ffi::OsStr::new(file)]);
    }
    let few = folder.wv(&format!("{ALL} --bits 1.8"));
    assert_eq!(
        (few.status, &few.err[..]),
        (1, "wv: refused: 1 of 3 proofs\n")
    );
    let line = "short: refused: the proof holds, but its M 3, tau 2, n 2 have 1.5 bits";
    assert!(few.text().contains(line), "{few:?}");
    let other = ALL.replace("--message text:wide", "--message text:other");
    let ended = folder.wv(&format!("{other} --bits 200"));
    assert_eq!(
        (ended.status, &ended.err[..]),
        (1, "wv: refused: 3 of 3 proofs\n")
    );
    assert_eq!(ended.text().lines().count(), 3);
    // Another message draws another challenge: its number is 12, or by chance one of the three.
    let does_not_hold = |number: u32| {
        ended.text().contains(&format!(
            "wide: refused {number}: it does not hold: y is not what the prover's row gives, or"
        ))
    };
    assert!([7, 10, 12, 13].into_iter().any(does_not_hold), "{ended:?}");
    let y = ALL.replace(Y32, "hex:f50100");
    let ended = folder.wv(&format!("{y} {BITS}"));
    let line = "wide: refused 6: --y has 3 bytes, the circuit asks for 5 (an input or a buffer \
                does not have the length that is asked for)\n";
    assert!(ended.text().starts_with(line), "{ended:?}");
}

#[test]
fn for_a_program() {
    let folder = with_proofs("several_json");
    let mut proof = folder.read("short");
    proof[5] = 1;
    folder.write("short", &proof);
    let ended = folder.wv(&format!(
        "check covers16.circuit long covers16.circuit short --y {Y16} --message text:long \
         --message text:short {BITS} --json"
    ));
    let expected = concat!(
        r#"{"accepted":false,"proofs":[{"proof":"long","accepted":true,"m":40,"tau":2,"n":2,"#,
        r#""bits":2.0,"refused":null,"message":null},{"proof":"short","accepted":false,"#,
        r#""refused":11,"message":"refused 11: short is no proof, or was cut or changed at its "#,
        r#"start: `wv prove` makes one; the proof stands behind its circuit (the proof does not "#,
        r#"begin with a proof's header)"}],"#,
        r#""refused":null,"message":"refused: 1 of 2 proofs"}"#,
        "\n"
    );
    assert_eq!((ended.status, ended.text()), (1, expected));
    assert_eq!(ended.err, "wv: refused: 1 of 2 proofs\n");
}

#[test]
fn mistakes() {
    let folder = with_proofs("several_mistakes");
    for quota in ["0", "513", "4294967295"] {
        let told = format!("--quota {quota}: a call checks 1 to 512 instances");
        folder.wv(&format!("{ALL} --quota {quota}")).mistaken(&told);
        let unread = "check none none --y none --message none";
        folder
            .wv(&format!("{unread} --quota {quota}"))
            .mistaken(&told);
    }
    for quota in ["-1", "many", "1.5", "4294967296"] {
        folder
            .wv(&format!("{ALL} --quota {quota}"))
            .mistaken(&format!("--quota {quota}: this is not a whole number"));
    }
    let two = ALL.replace("--y hex:f501000000", "");
    folder
        .wv(&two)
        .mistaken("`--y` stands there 2 times for 3 proofs: once for all, or once for each");
    let four = format!("{ALL} --message text:a");
    folder
        .wv(&four)
        .mistaken("`--message` stands there 4 times for 3 proofs");
    folder
        .wv(&format!("{ALL} covers16.circuit"))
        .mistaken("an argument is missing");
    folder
        .wv(&format!("{ALL} --quota 1 --quota 2"))
        .mistaken("`--quota` stands there twice");
    folder.wv(&ALL.replace(" wide", " none")).mistaken("none: ");
    folder
        .wv(&format!(
            "check covers16.circuit short --y {Y16} --y {Y16} --message text:short"
        ))
        .mistaken("`--y` stands there twice, for one proof");
    assert_eq!(folder.read("covers16.circuit"), covers16());
}
