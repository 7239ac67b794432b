//! From a question to a proof: statements, rows and claims through the command line.
#![deny(unused_must_use)]

mod common;

use common::Folder;

macro_rules! example {
    ($file:literal) => {
        include_bytes!(concat!("../../../examples/", $file))
    };
}

/// Stock, order and date; all three conditions join, one of them is shown alone.
const GOODS: &str = "\
# A lot that can go out.
row on_hand: 16, incoming: 16, order: 16, best_before: 32, supplier: 8

let total = on_hand + incoming
show enough = total >= order + 10
show good = enough and best_before >= 20261201 and supplier in (7, 20 to 29)
show order
";

/// 200 + 60 covers 250 + 10.
const VALUES: &str = "on_hand=200 incoming=60 order=250\nbest_before=20270115, supplier=21\n";

const PROVE: &str = "prove goods.circuit goods.row --shelf page --log log --message text:a \
                     --out proof --statement goods.statement";

/// A folder with this statement, its circuit and its row, and a shelf.
fn folder(name: &str) -> Folder {
    let folder = Folder::with_shelf(name);
    folder.write("goods.statement", GOODS.as_bytes());
    folder.write("values", VALUES.as_bytes());
    // 16 for the total; 14 for order + 10, whose two lowest bits are for nothing; 17 to
    // compare; 31 for the date, which is odd; 7 for the 7, and for 20 to 29 the thresholds
    // 20 and 30, 5 and 6; two to join.
    let built = folder.wv("build goods.statement --out goods.circuit");
    assert_eq!((built.status, built.err.as_str()), (0, ""));
    let text = built.text();
    assert!(
        text.starts_with("built a circuit with 88 inputs, 18 outputs and "),
        "{text}"
    );
    assert!(text.ends_with(" gates, 98 of them AND\n"), "{text}");
    folder
        .wv("row goods.statement values --out goods.row")
        .says("packed 5 values into 95 bytes\n");
    folder
}

/// The examples are built from their statements, and their rows from values.
#[test]
fn the_examples_are_built() {
    let folder = Folder::new("statement_examples");
    folder.write("a.statement", example!("both.statement"));
    let values = "on_hand=1000 order=250 best_before=20045 today=20000";
    let told = "built a circuit with 64 inputs, 34 outputs and 126 gates, 32 of them AND\n";
    folder.wv("build a.statement --out a").says(told);
    assert_eq!(folder.read("a"), example!("both.circuit"));
    let row = folder.wv_reading("row a.statement - --out bare --bare", values.as_bytes());
    row.says("packed 4 values into 8 bytes\n");
    assert_eq!(folder.read("bare"), example!("both.row"));
    let row = folder.wv_reading("row a.statement - --out row", values.as_bytes());
    row.says("packed 4 values into 76 bytes\n");
    let fields = b"wivulameno row 1 on_hand: 16, order: 16, best_before: 16, today: 16\n";
    assert_eq!(
        folder.read("row"),
        [fields, &example!("both.row")[..]].concat()
    );
    let shown = "covered=yes\norder=250\nin_date=yes\ntoday=20000\n";
    folder
        .wv("evaluate a row --statement a.statement")
        .says(shown);
    // The lines that are printed are values for a claim.
    let y = folder.wv_reading("claim a.statement - --out -", shown.as_bytes());
    assert_eq!((y.status, y.out), (0, vec![0xf5, 0x01, 0x82, 0x38, 0x01]));
}

#[test]
fn from_a_question_to_a_proof() {
    let folder = folder("statement_proof");
    let shown = "enough=yes\ngood=yes\norder=250\n";
    let evaluate = "evaluate goods.circuit goods.row --statement goods.statement";
    folder.wv(evaluate).says(shown);
    folder.wv(&format!("{evaluate} --out shown")).says("");
    assert_eq!(folder.read("shown"), shown.as_bytes());
    let made = folder.wv(PROVE);
    assert_eq!((made.status, made.err.as_str()), (0, ""));
    folder
        .wv("claim goods.statement 'text:order=250 enough=yes good=yes' --out y")
        .says("packed 3 values into 3 bytes\n");
    let check = "check goods.circuit proof --y y --message text:a";
    let accepted = folder.wv(check);
    let line = "accepted, M 145, tau 66, n 8, soundness 128.0 bits\n";
    accepted.says(line);
    let by_field = format!("{check} --statement goods.statement");
    folder.wv(&by_field).says(&format!("{shown}{line}"));
    folder.wv(&format!("{by_field} --json")).says(
        "{\"accepted\":true,\"m\":145,\"tau\":66,\"n\":8,\"bits\":128.0,\
         \"y\":{\"enough\":true,\"good\":true,\"order\":250},\"refused\":null,\"message\":null}\n",
    );
    // A y that is not proved is not printed.
    for claim in [
        "order=251 enough=yes good=yes",
        "order=250 enough=yes good=no",
    ] {
        let line = format!("claim goods.statement 'text:{claim}' --out y");
        assert_eq!(folder.wv(&line).status, 0);
        let refused = folder.wv(&by_field);
        assert_eq!((refused.status, refused.text()), (1, ""), "{claim}");
        let refused = folder.wv(&format!("{by_field} --json"));
        assert!(
            refused.text().starts_with("{\"accepted\":false,"),
            "{refused:?}"
        );
        assert!(!refused.text().contains("\"y\""), "{refused:?}");
    }
}

/// What the conditions say of other rows.
#[test]
fn other_rows() {
    let folder = folder("statement_rows");
    let known = [
        ("incoming=60", "incoming=59", "no", "no"),
        ("best_before=20270115", "best_before=20261201", "yes", "yes"),
        ("best_before=20270115", "best_before=20261130", "yes", "no"),
        ("supplier=21", "supplier=7", "yes", "yes"),
        ("supplier=21", "supplier=29", "yes", "yes"),
        ("supplier=21", "supplier=30", "yes", "no"),
        (
            "on_hand=200 incoming=60",
            "on_hand=65535 incoming=65535",
            "yes",
            "yes",
        ),
        ("order=250", "order=65535", "no", "no"),
    ];
    for (old, new, enough, good) in known {
        let values = VALUES.replace(old, new);
        let order = if new == "order=65535" { 65_535 } else { 250 };
        let row = folder.wv_reading("row goods.statement - --out other", values.as_bytes());
        assert_eq!(row.status, 0, "{row:?}");
        folder
            .wv("evaluate goods.circuit other --statement goods.statement")
            .says(&format!("enough={enough}\ngood={good}\norder={order}\n"));
    }
}

/// The circuit has to be the statement's: another text, or another circuit of the same
/// sizes, asks something else.
#[test]
fn a_circuit_of_another_statement() {
    let folder = folder("statement_other");
    let other = GOODS.replace("total >=", "total >");
    folder.write("other.statement", other.as_bytes());
    assert_eq!(folder.wv(PROVE).status, 0);
    let before = folder.files();
    let told = "goods.circuit is not what other.statement asks: `wv build` makes its circuit";
    folder
        .wv("evaluate goods.circuit goods.row --statement other.statement")
        .unwanted(told);
    folder
        .wv("evaluate goods.circuit goods.row --statement other.statement --out y")
        .unwanted(told);
    let check = "check goods.circuit proof --y hex:eb0300 --message text:a --statement";
    folder
        .wv(&format!("{check} other.statement"))
        .unwanted(told);
    let json = folder.wv(&format!("{check} other.statement --json"));
    assert_eq!(json.status, 1);
    assert!(json.text().starts_with("{\"accepted\":false,"), "{json:?}");
    // Stock and order in each other's place: a circuit of the same length.
    let swapped = GOODS.replace("on_hand: 16, incoming", "order: 16, incoming");
    let swapped = swapped.replace("incoming: 16, order: 16", "incoming: 16, on_hand: 16");
    let built = folder.wv_reading("build - --out -", swapped.as_bytes());
    assert_eq!(built.out.len(), folder.read("goods.circuit").len());
    let refused = folder.wv_reading(&format!("{check} -"), swapped.as_bytes());
    refused.unwanted("goods.circuit is not what standard input asks");
    let right = folder.wv(&format!("{check} goods.statement"));
    assert_eq!(right.status, 0, "{right:?}");
    assert_eq!(folder.files(), before);
}

/// The name of the file, the line and the column; nothing is written.
#[test]
fn faults_are_told_with_their_place() {
    let folder = folder("statement_faults");
    folder.write("a.statement", b"row a: 4\nshow b = a >= c\n");
    folder.write("wrong", b"on_hand=200\nincoming=65536\n");
    let before = folder.files();
    let known = [
        (
            "build a.statement --out k",
            "a.statement: line 2, column 15: `c` stands for nothing up to here",
        ),
        (
            "build 'text:row a: 4 show a ?' --out k",
            "the typed statement: line 1, column 17: `?` cannot stand here",
        ),
        (
            "row a.statement values --out k",
            "a.statement: line 2, column 15: ",
        ),
        (
            "evaluate goods.circuit goods.row --statement a.statement",
            "a.statement: line 2, column 15: ",
        ),
        (
            "row goods.statement wrong --out k",
            "wrong: line 2, column 10: `incoming` is at most 65535",
        ),
        (
            "row goods.statement 'text:on_hand=1' --out k",
            "the typed values: line 1, column 10: `incoming` has no value",
        ),
        (
            "claim goods.statement 'text:order=250 good=maybe' --out k",
            "the typed values: line 1, column 16: `good` is yes or no, not `maybe`",
        ),
        (
            "claim goods.statement values --out k",
            "values: line 1, column 1: `on_hand` is none of enough, good, order",
        ),
    ];
    for (line, told) in known {
        let ended = folder.wv(line);
        ended.mistaken(told);
        assert_eq!(ended.err.lines().count(), 1, "{ended:?}");
    }
    assert_eq!(folder.files(), before);
}

#[test]
fn mistakes_with_a_statement() {
    let folder = folder("statement_mistakes");
    let before = folder.files();
    let own = "the output needs a file of its own";
    let known = [
        ("build goods.statement", "`--out` is needed"),
        ("row goods.statement values", "`--out` is needed"),
        ("row goods.statement --out k", "an argument is missing"),
        ("claim goods.statement --out k", "an argument is missing"),
        ("build missing --out k", "missing: "),
        ("build goods.statement --out goods.statement", own),
        ("row goods.statement values --out values", own),
        ("row goods.statement values --out goods.statement", own),
        ("claim goods.statement values --out values", own),
        (
            "evaluate goods.circuit goods.row --statement goods.statement --out goods.statement",
            own,
        ),
        (
            "evaluate goods.circuit goods.row --statement",
            "`--statement` needs a value",
        ),
    ];
    for (line, told) in known {
        folder.wv(line).mistaken(told);
    }
    assert_eq!(folder.files(), before);
}

/// A field that is too narrow for the number that it is compared with.
#[test]
fn a_comparison_with_one_answer_is_told() {
    let folder = Folder::new("statement_note");
    let text = "row best_before: 16\nshow fresh = best_before >= 20261201\n";
    folder.write("a.statement", text.as_bytes());
    folder
        .wv("build a.statement --out a.circuit")
        .tells("note: a.statement: line 2, column 14: this is no for every row");
    folder
        .wv("evaluate a.circuit hex:ffff --statement a.statement")
        .says("fresh=no\n");
}

/// From a pipe to a pipe.
#[test]
fn statements_from_pipes() {
    let folder = Folder::new("statement_pipes");
    let built = folder.wv_reading("build - --out -", example!("covers16.statement"));
    assert_eq!((built.status, built.err.as_str()), (0, ""));
    assert_eq!(built.out, example!("covers16.circuit"));
    folder.write("a.statement", example!("covers16.statement"));
    let row = folder.wv_reading(
        "row a.statement - --bare --out -",
        b"order=250 on_hand=1000",
    );
    assert_eq!(
        (row.status, &row.out[..]),
        (0, &example!("covers16.row")[..])
    );
    let row = folder.wv_reading("row a.statement - --out -", b"order=250 on_hand=1000");
    folder.write("a.circuit", &built.out);
    let evaluate = "evaluate a.circuit - --statement a.statement";
    folder
        .wv_reading(evaluate, &row.out)
        .says("covered=yes\norder=250\n");
    // The bytes themselves: 1 + 2 * 250.
    let raw = folder.wv_reading(&format!("{evaluate} --raw"), &row.out);
    assert_eq!((raw.status, raw.out), (0, vec![0xf5, 1, 0]));
}
