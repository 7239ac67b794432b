//! A row belongs to its fields: it is proved for a statement about them, and for no other.
//! Bare bits are taken as they are.
#![deny(unused_must_use)]

mod common;

use common::Folder;

/// What is shown here is hidden there: 16 bits behind 16.
const COVERED: &str = "row on_hand: 16, order: 16\nshow covered = on_hand >= order\nshow order\n";
const PRICED: &str = "row volume: 16, price: 16\nshow cheap = price < 100\nshow volume\n";

/// A shelf, two statements whose rows have the same bits, their circuits, and a row of each.
fn folder(name: &str) -> Folder {
    let folder = Folder::with_shelf(name);
    for (name, text, values) in [
        ("covered", COVERED, "on_hand=1000 order=250"),
        ("priced", PRICED, "volume=7 price=99"),
    ] {
        folder.write(format!("{name}.statement"), text.as_bytes());
        folder.write(format!("{name}.values"), values.as_bytes());
        for line in [
            format!("build {name}.statement --out {name}.circuit"),
            format!("row {name}.statement {name}.values --out {name}.row"),
            format!("row {name}.statement {name}.values --out {name}.bits --bare"),
        ] {
            assert_eq!(folder.wv(&line).status, 0, "{line}");
        }
    }
    assert_eq!(folder.read("covered.bits"), [0xe8, 3, 0xfa, 0]);
    assert_eq!(folder.read("priced.bits"), [7, 0, 99, 0]);
    folder
}

fn evaluate(circuit: &str, witness: &str) -> String {
    format!("evaluate {circuit}.circuit {witness} --statement {circuit}.statement")
}

fn prove(circuit: &str, witness: &str) -> String {
    format!(
        "prove {circuit}.circuit {witness} --shelf page --log log --message text:a --out proof \
         --statement {circuit}.statement"
    )
}

/// Both commands end so, and neither draws a root nor writes a proof.
fn refused(folder: &Folder, circuit: &str, witness: &str, is_it: impl Fn(common::Ended)) {
    is_it(folder.wv(&evaluate(circuit, witness)));
    is_it(folder.wv(&prove(circuit, witness)));
    assert!(!folder.has("proof"), "{witness}");
    assert_eq!(folder.draws(), 0, "{witness}");
}

#[test]
fn a_row_of_its_statement() {
    let folder = folder("rows_own");
    folder
        .wv(&evaluate("covered", "covered.row"))
        .says("covered=yes\norder=250\n");
    let made = folder.wv(&prove("covered", "covered.row"));
    assert_eq!((made.status, made.err.as_str()), (0, ""));
    assert!(made
        .text()
        .starts_with("covered=yes\norder=250\nproved f50100 "));
    folder
        .wv("check covered.circuit proof --y hex:f50100 --message text:a")
        .says("accepted, M 145, tau 66, n 8, soundness 128.0 bits\n");
}

/// The hazard: the row of the other statement has as many bits, and the order that it
/// shows would be a price that it hides.
#[test]
fn a_row_of_another_statement() {
    let folder = folder("rows_other");
    refused(&folder, "covered", "priced.row", |ended| {
        ended.unwanted(
            "priced.row is not a row of covered.statement: its field 1 is `volume: 16`, and the \
             statement's is `on_hand: 16`: `wv row covered.statement VALUES` packs one",
        );
    });
    let bytes = folder.read("priced.row");
    let ended = folder.wv_reading(&evaluate("covered", "-"), &bytes);
    ended.unwanted("standard input is not a row of covered.statement: its field 1 ");
}

/// Fields in another order, under another name, of another width, one more, one less.
#[test]
fn a_row_of_other_fields() {
    let folder = folder("rows_fields");
    let known = [
        (
            "row order: 16, on_hand: 16",
            "order=250 on_hand=1000",
            "field 1 is `order: 16`, and the statement's is `on_hand: 16`",
        ),
        (
            "row on_hand: 16, ordered: 16",
            "ordered=250 on_hand=1000",
            "field 2 is `ordered: 16`, and the statement's is `order: 16`",
        ),
        (
            "row on_hand: 17, order: 15",
            "order=250 on_hand=1000",
            "field 1 is `on_hand: 17`, and the statement's is `on_hand: 16`",
        ),
        (
            "row on_hand: 16, order: 16, today: 16",
            "order=250 on_hand=1000 today=3",
            "field 3 is `today: 16`, and the statement's is none",
        ),
        (
            "row on_hand: 16",
            "on_hand=1000",
            "field 2 is none, and the statement's is `order: 16`",
        ),
    ];
    for (row, values, told) in known {
        folder.write("other.statement", format!("{row}\nshow on_hand").as_bytes());
        folder.write("other.values", values.as_bytes());
        let packed = folder.wv("row other.statement other.values --out other.row");
        assert_eq!(packed.status, 0, "{packed:?}");
        refused(&folder, "covered", "other.row", |ended| {
            ended.unwanted(told)
        });
    }
}

/// Two statements about one row.
#[test]
fn one_row_for_two_statements() {
    let folder = folder("rows_two");
    let text = "row on_hand: 16\nrow order: 16\nshow twice = on_hand >= order + order";
    folder.write("twice.statement", text.as_bytes());
    assert_eq!(
        folder
            .wv("build twice.statement --out twice.circuit")
            .status,
        0
    );
    folder
        .wv(&evaluate("twice", "covered.row"))
        .says("twice=yes\n");
    let made = folder.wv(&prove("twice", "covered.row"));
    assert_eq!((made.status, made.err.as_str()), (0, ""));
    assert!(made.text().starts_with("twice=yes\nproved 01 "), "{made:?}");
}

/// The row's statement, but the circuit of another one with the same fields.
#[test]
fn a_circuit_of_another_statement() {
    let folder = folder("rows_circuit");
    let text = COVERED.replace("show order", "show on_hand");
    folder.write("open.statement", text.as_bytes());
    assert_eq!(
        folder.wv("build open.statement --out open.circuit").status,
        0
    );
    let told = "open.circuit is not what covered.statement asks";
    for line in [
        evaluate("covered", "covered.row"),
        prove("covered", "covered.row"),
    ] {
        let line = line.replace("covered.circuit", "open.circuit");
        folder.wv(&line).unwanted(told);
    }
    assert_eq!(folder.draws(), 0);
}

#[test]
fn a_row_without_its_statement() {
    let folder = folder("rows_alone");
    let told =
        "covered.row is a packed row, which goes with a statement: add `--statement STATEMENT`";
    for line in [
        evaluate("covered", "covered.row"),
        prove("covered", "covered.row"),
    ] {
        let line = line.replace(" --statement covered.statement", "");
        let ended = folder.wv(&line);
        ended.mistaken(told);
        assert_eq!(ended.err.lines().count(), 1, "{ended:?}");
    }
    assert_eq!(folder.draws(), 0);
}

/// A row file that was changed, cut or lengthened, or is of another version.
#[test]
fn a_damaged_row() {
    let folder = folder("rows_damaged");
    let row = folder.read("covered.row");
    // 17 bytes of version, 22 of fields, the line's end, and 4 of bits.
    assert_eq!(row.len(), 17 + 22 + 1 + 4);
    let mut version = row.clone();
    version[15] = b'2';
    let mut name = row.clone();
    name[17] = b'!';
    let mut end = row.clone();
    end[39] = b' ';
    let known = [
        (
            version,
            "it is a packed row of another version: `wv row` packs it again",
        ),
        (name, "its first line, which names the fields, is damaged"),
        (end, "its first line, which names the fields, is damaged"),
        (
            row[..30].to_vec(),
            "its first line, which names the fields, is damaged",
        ),
        (
            row[..43].to_vec(),
            "it has 3 of 4 bytes behind its first line: it was cut off or changed: `wv row` packs it \
             again",
        ),
        (row[..40].to_vec(), "it has 0 of 4 bytes behind its first line"),
        (
            [&row[..], &[0]].concat(),
            "it has 5 of 4 bytes behind its first line",
        ),
    ];
    for (bytes, told) in known {
        folder.write("damaged.row", &bytes);
        refused(&folder, "covered", "damaged.row", |ended| {
            ended.mistaken(&format!("damaged.row: {told}"));
        });
    }
    // A field's name with a slip in it is another field.
    let mut other = row.clone();
    other[17] = b'a';
    folder.write("damaged.row", &other);
    refused(&folder, "covered", "damaged.row", |ended| {
        ended.unwanted("its field 1 is `an_hand: 16`");
    });
    // Without the first word it is no row file, and too long for bare bits.
    folder.write("damaged.row", &[b"W", &row[1..]].concat());
    refused(&folder, "covered", "damaged.row", |ended| {
        ended.refused(6, "damaged.row has 44 bytes, the circuit asks for 4");
    });
}

/// A row file that is as long as the witness of a large circuit is no witness of it.
#[test]
fn a_row_as_long_as_a_witness() {
    let folder = folder("rows_long");
    // 44 bytes, 352 bits.
    let text = "row a: 128, b: 128, c: 96\nshow a";
    folder.write("long.statement", text.as_bytes());
    assert_eq!(
        folder.wv("build long.statement --out long.circuit").status,
        0
    );
    folder
        .wv("evaluate long.circuit covered.row")
        .mistaken("covered.row is a packed row");
    refused(&folder, "long", "covered.row", |ended| {
        ended.unwanted("its field 1 is `on_hand: 16`, and the statement's is `a: 128`");
    });
}

/// As a host has them: taken for every circuit of this length. With a statement it is said
/// that nothing tells what they are.
#[test]
fn bare_bits() {
    let folder = folder("rows_bare");
    folder
        .wv("evaluate covered.circuit covered.bits")
        .says("f50100\n");
    folder
        .wv("evaluate covered.circuit hex:e803fa00")
        .says("f50100\n");
    let alone = prove("covered", "covered.bits").replace(" --statement covered.statement", "");
    let made = folder.wv(&alone);
    assert_eq!((made.status, made.err.as_str()), (0, ""));
    // The price as the order: 2 * 99.
    folder
        .wv("evaluate covered.circuit priced.bits")
        .says("c60000\n");
    folder
        .wv(&evaluate("covered", "priced.bits"))
        .says("covered=no\norder=99\n");
    let note = "note: the witness covered.bits has bare bits, which may be those of another row: \
                `wv row` packs a row that is refused unless its fields are those of the statement";
    let made = folder.wv(&prove("covered", "covered.bits"));
    made.tells(note);
    let y = format!("{} --y hex:f50100", prove("covered", "priced.bits"));
    folder.wv(&y).refused(
        10,
        "gives covered=no order=99, and --y is covered=yes order=250",
    );
    assert_eq!(folder.draws(), 2);
}

/// For two statements joined there are the bits alone.
#[test]
fn bare_bits_for_a_joined_circuit() {
    let folder = folder("rows_joined");
    let joined = folder.wv("join covered.circuit covered.circuit --out both.circuit");
    assert_eq!(joined.status, 0, "{joined:?}");
    folder
        .wv("evaluate both.circuit covered.row")
        .mistaken("for a circuit of another source `wv row --bare` packs the bits alone");
    // 501 in 17 bits, twice: 501 + 501 * 2^17 = 0x3ea01f5.
    folder
        .wv("evaluate both.circuit covered.bits")
        .says("f501ea0300\n");
}

/// Where another file belongs, a row is told as one.
#[test]
fn a_row_in_another_place() {
    let folder = folder("rows_place");
    let known = [
        ("circuit covered.row", "it is a packed row, no circuit"),
        (
            "check covered.circuit covered.row --y hex:f50100 --message text:a",
            "it is a packed row, no proof",
        ),
        (
            "check covered.circuit covered.circuit --y covered.row --message text:a",
            "it is a packed row, no packed y",
        ),
    ];
    for (line, told) in known {
        let ended = folder.wv(line);
        assert_eq!(ended.status, 1, "{ended:?}");
        assert!(ended.err.contains(told), "{ended:?}");
    }
    for line in [
        "build covered.row --out k",
        "row covered.statement covered.row --out k",
    ] {
        folder.wv(line).mistaken("it is a packed row, no ");
    }
}
