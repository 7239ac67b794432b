//! What a new user gets wrong: the wrong file, a slip in the command line, a file in the
//! way of an output. Each is told with what to do.
#![deny(unused_must_use)]

mod common;

use common::{covers16, Folder};

const STATEMENT: &[u8] = include_bytes!("../../../examples/covers16.statement");
const BRISTOL: &[u8] = b"1 3\n2 1 1\n1 1\n\n2 1 0 1 2 AND\n";

/// How a circuit is made.
const MADE: &str =
    "`wv build` makes one from a statement, `wv convert` from a Bristol Fashion text";

const PROVE: &str = "prove covers16.circuit row --shelf page --log log --message text:a";

/// A file of every kind: a circuit, a row, a page, a log, a statement, values, a text in
/// Bristol Fashion, a proof, and others.
fn with_all(name: &str) -> Folder {
    let folder = Folder::with_shelf(name);
    folder.write("asked", STATEMENT);
    folder.write("values", b"on_hand=1000 order=250\n");
    folder.write("bristol", BRISTOL);
    folder.write("letter", b"Dear depot,\n");
    folder.write("digits", b"f50100\n");
    folder.write("empty", b"");
    folder.write("noise", &[0xa7; 33]);
    let made = folder.wv(&format!("{PROVE} --out proof"));
    assert_eq!(made.status, 0, "{made:?}");
    folder
}

/// Packs these values for the statement, as `row`.
fn pack(folder: &Folder, values: &str) {
    let packed = folder.wv_reading("row asked - --out row", values.as_bytes());
    assert_eq!((packed.status, packed.err.as_str()), (0, ""));
}

/// Names of files, and what each is in place of a `wanted`.
fn others(wanted: &str) -> Vec<(&'static str, String)> {
    let known = [
        ("page", "it is a shelf page"),
        ("log", "it is the log of a shelf"),
        ("proof", "it is a proof"),
        ("asked", "it is a statement"),
        ("values", "it is a text with values"),
        ("bristol", "it is a Bristol Fashion text"),
        ("letter", "it is a text"),
        ("digits", "it is a text of hexadecimal digits"),
        ("empty", "it is empty"),
    ];
    let told = |(name, is): (&'static str, &str)| (name, format!("{name}: {is}, no {wanted}"));
    known.into_iter().map(told).collect()
}

/// Every command that reads a circuit tells what the file is, and how one is made.
#[test]
fn no_circuit() {
    let folder = with_all("newcomers_circuit");
    for (name, told) in others("circuit") {
        let made = match name {
            "asked" => "`wv build` makes one from it",
            "bristol" => "`wv convert` makes one from it",
            _ => MADE,
        };
        for line in [
            format!("circuit {name}"),
            format!("evaluate {name} row"),
            format!("{PROVE} --out out").replace("covers16.circuit", name),
            format!("check {name} proof --y hex:f50100 --message text:a"),
            format!("cost {name}"),
            format!("join covers16.circuit {name} --out out"),
            format!("one-of {name} --outputs hex:01 --out out"),
        ] {
            let ended = folder.wv(&line);
            let number = ended.err.split([' ', ':']).nth(3).expect("a number");
            let number = number.parse().expect("a number");
            assert!([1, 2].contains(&number), "{line}: {ended:?}");
            ended.refused(number, &format!("{told}: {made}"));
        }
    }
    let noise = folder.wv("circuit noise");
    noise.refused(2, &format!("noise: this is no circuit file: {MADE}"));
    assert!(!folder.has("out"));
    assert_eq!(folder.draws(), 1, "only the proof of the start");
}

/// A circuit that was cut, lengthened or changed, and one beyond the limits.
#[test]
fn a_circuit_that_is_none_any_more() {
    let folder = Folder::new("newcomers_cut");
    let circuit = covers16();
    folder.write("cut", &circuit[..1000]);
    folder.wv("circuit cut").refused(
        1,
        "cut: its header asks for 1092 bytes, and it has 1000 bytes: it was cut off or changed; \
         copy it anew, or make it again",
    );
    folder.write("long", &[&circuit[..], &[0]].concat());
    folder
        .wv("circuit long")
        .refused(1, "and it has 1093 bytes");
    let mut changed = circuit.clone();
    // The kind of the gate in slot 1, behind 16 bytes and 17 outputs.
    changed[16 + 4 * 17] = 9;
    folder.write("changed", &changed);
    folder
        .wv("circuit changed")
        .refused(3, "changed: it was changed: copy it anew, or make it again");
    // 513 inputs, one output, no gate.
    let wide = [513_u32, 1, 0, 0, 0].map(u32::to_le_bytes).concat();
    folder.write("wide", &wide);
    folder.wv("circuit wide").refused(
        2,
        "wide: it has 513 inputs, 1 output and 0 gates, and a circuit has 1 to 512, 1 to 256 and \
         at most 100000",
    );
}

#[test]
fn no_proof() {
    let folder = with_all("newcomers_proof");
    folder.write("circuit", &covers16());
    let mut all = others("proof");
    all.retain(|(name, _)| *name != "proof");
    all.push(("circuit", "circuit: it is a circuit, no proof".into()));
    for (name, told) in all {
        folder
            .wv(&format!(
                "check covers16.circuit {name} --y hex:f50100 --message text:a"
            ))
            .refused(11, &format!("{told}: `wv prove` makes one"));
    }
    // The two the other way round.
    folder
        .wv("check proof covers16.circuit --y hex:f50100 --message text:a")
        .refused(
            2,
            "proof: it is a proof, no circuit, and covers16.circuit is one: the circuit stands first",
        );
    folder.write(
        "goods.row",
        b"wivulameno row 1 on_hand: 16, order: 16\n\xe8\x03\xfa\x00",
    );
    for command in [
        "evaluate",
        "prove --shelf page --log log --message text:a --out out",
    ] {
        folder
            .wv(&format!("{command} goods.row covers16.circuit"))
            .refused(
                2,
                "goods.row: it is a packed row, no circuit, and covers16.circuit is one",
            );
    }
}

/// Texts where packed bits belong.
#[test]
fn no_row_and_no_y() {
    let folder = with_all("newcomers_packed");
    let row = "no packed row: `wv row` packs one from values";
    for name in ["values", "asked", "page", "proof"] {
        let evaluated = folder.wv(&format!("evaluate covers16.circuit {name}"));
        evaluated.refused(6, row);
        let line = format!("{PROVE} --out out").replace(" row ", &format!(" {name} "));
        folder.wv(&line).refused(6, row);
    }
    let y = "it is a text of hexadecimal digits, no packed y: `wv claim` packs one, `wv evaluate \
             --raw` writes one, and digits are typed behind `hex:`";
    folder
        .wv("check covers16.circuit proof --y digits --message text:a")
        .refused(6, y);
    folder
        .wv(&format!("{PROVE} --out out --y digits"))
        .refused(6, y);
    // Bit 17 of a y of 17.
    folder.write("other", &[0, 0, 2]);
    folder
        .wv("check covers16.circuit proof --y other --message text:a")
        .refused(7, "it may be no packed y: `wv claim` packs one");
    let typed = "--y 'text:covered=yes order=250'";
    folder
        .wv(&format!(
            "check covers16.circuit proof {typed} --message text:a"
        ))
        .refused(
            6,
            "it is a text with values, no packed y: `wv claim` packs one",
        );
    // What is typed in digits is meant so: its length is told alone.
    let typed = folder.wv("evaluate covers16.circuit hex:66");
    typed.refused(6, "the witness has 1 byte, the circuit asks for 4");
    assert!(typed.err.contains("asks for 4 (an input"), "{typed:?}");
}

/// The line and column, and what the file is.
#[test]
fn no_statement_and_no_values() {
    let folder = with_all("newcomers_texts");
    let statement = "no statement: `wv help build` shows one";
    for name in [
        "covers16.circuit",
        "page",
        "log",
        "proof",
        "values",
        "bristol",
    ] {
        let built = folder.wv(&format!("build {name} --out out"));
        built.mistaken(&format!("{name}: it is "));
        built.mistaken(statement);
        built.mistaken(" (line ");
        let claimed = folder.wv(&format!("claim {name} values --out out"));
        claimed.mistaken(statement);
    }
    folder
        .wv("build noise --out out")
        .mistaken("this is no statement");
    let values = "no text with values: it stands behind the statement, as `on_hand=1000 order=250`";
    for name in [
        "covers16.circuit",
        "page",
        "log",
        "proof",
        "asked",
        "bristol",
    ] {
        let packed = folder.wv(&format!("row asked {name} --out out"));
        packed.mistaken(&format!("{name}: it is "));
        packed.mistaken(values);
        packed.mistaken(" (line ");
    }
    folder.wv("row values asked --out out").mistaken(
        "values: it is a text with values, no statement: `wv help build` shows one, and values \
         stand behind it (line 1, column 1: ",
    );
    // A statement with a fault is one: nothing else is told of it.
    folder.write("faulty", b"row a: 4\nshow b\n");
    let faulty = folder.wv("build faulty --out out");
    let told = "wv: faulty: line 2, column 6: `b` stands for nothing up to here: `show b = ..` \
                says what it is\n";
    assert_eq!((faulty.status, faulty.err.as_str()), (2, told));
    assert!(!folder.has("out"));
}

#[test]
fn no_text_to_convert_and_nothing_to_upgrade() {
    let folder = with_all("newcomers_convert");
    let known = [
        (
            "covers16.circuit",
            "it is a circuit, no",
            "it is a circuit as `wv` takes it",
        ),
        (
            "asked",
            "it is a statement, no",
            "`wv build` makes a circuit of it",
        ),
        (
            "page",
            "it is a shelf page, no",
            "`wv help convert` shows the form",
        ),
        ("noise", "this is no", "`wv help convert` shows the form"),
    ];
    for (name, is, done) in known {
        folder
            .wv(&format!("convert {name} --out out"))
            .refused(22, &format!("{is} Bristol Fashion text: {done}"));
    }
    folder.write("nand", b"1 3\n2 1 1\n1 1\n2 1 0 1 2 NAND\n");
    folder.wv("convert nand --out out").refused(
        23,
        "nand: line 4; write a gate of another kind as some of these",
    );
    folder.write("wide", b"1 514\n1 513\n1 1\n2 1 0 1 513 AND\n");
    folder.wv("convert wide --out out").refused(
        24,
        "wide: line 2; a circuit has 1 to 512 inputs, 1 to 256 outputs and at most 100000 gates: \
         what has more is proved in parts",
    );
    let known = [
        (
            "asked",
            "it is a statement, no circuit of the old form: `wv build`",
        ),
        (
            "bristol",
            "it is a Bristol Fashion text, no circuit of the old form: `wv convert`",
        ),
        (
            "letter",
            "it is a text, no circuit of the old form: name the circuit",
        ),
        (
            "noise",
            "this is no circuit of the old form, or it was cut off or changed: copy it",
        ),
    ];
    for (name, told) in known {
        let ended = folder.wv(&format!("upgrade {name} --out out"));
        ended.refused(2, told);
    }
    assert!(!folder.has("out"));
}

/// Page and log in each other's place, and other files there. Nothing is changed.
#[test]
fn no_page_and_no_log() {
    let folder = with_all("newcomers_shelf");
    let before = folder.files();
    for command in ["shelf status", "shelf stock"] {
        let fresh = if command == "shelf stock" {
            " --fresh 1"
        } else {
            ""
        };
        folder
            .wv(&format!("{command} log --log page{fresh}"))
            .mistaken(
                "page is a shelf page, and log is a log: they stand in each other's place, and \
                 the log belongs behind --log",
            );
        folder
            .wv(&format!("{command} page log{fresh}"))
            .mistaken("`log` is one argument too many: the log stands behind --log");
        let ended = folder.wv(&format!("{command} covers16.circuit --log log{fresh}"));
        ended.refused(
            14,
            "covers16.circuit: it is a circuit: name the page, and its log behind --log, or put \
             the present page back",
        );
        folder
            .wv(&format!("{command} page --log asked{fresh}"))
            .mistaken("it is a statement: name the log of this page");
        // An empty file can be what a crash has left of a page.
        folder
            .wv(&format!("{command} empty --log log{fresh}"))
            .refused(14, "empty: put the present page back");
    }
    assert_eq!(folder.files(), before);
}

/// No output of any command replaces a page or a log, whosever it is, by whatever way.
#[test]
fn shelves_are_not_replaced() {
    let folder = with_all("newcomers_kept");
    // Old K, document 01's circuit in fields of 16 bits.
    let old_k = [2, 0, 1, 0, 1, 0, 1, 0, 2, 0, 2, 0, 0, 0, 1, 0, 0, 0];
    folder.write("old", &old_k);
    folder
        .wv("shelf new other --log otherlog --slots 255")
        .says("");
    // A page that is damaged may still hold the only roots there are.
    let mut damaged = folder.read("page");
    damaged[12] ^= 1;
    folder.write("damaged", &damaged);
    let lines = [
        "build asked",
        "row asked values",
        "claim asked 'text:covered=yes order=250'",
        "convert bristol",
        "upgrade old",
        "join covers16.circuit covers16.circuit",
        "one-of covers16.circuit --outputs hex:f50100",
        "small --inputs 2 --gates 1 --place 4",
        "evaluate covers16.circuit row",
        "evaluate covers16.circuit row --raw",
        PROVE,
    ];
    let before = folder.files();
    for line in lines {
        for (file, what) in [
            ("other", "a shelf page"),
            ("damaged", "a shelf page"),
            ("otherlog", "the log of a shelf"),
        ] {
            folder
                .wv(&format!("{line} --out {file}"))
                .mistaken(&format!(
                "--out {file} is {what}, which no output replaces: give the output another name"
            ));
            assert_eq!(folder.files(), before, "{line} --out {file}");
        }
        let ended = folder.sh(&format!("wv {line} --out - >> otherlog"));
        ended.mistaken("standard output is the log of a shelf");
        let ended = folder.sh(&format!("wv {line} --out /dev/fd/3 3>> other"));
        ended.mistaken("--out /dev/fd/3 is a shelf page");
        assert_eq!(folder.files(), before, "{line}");
        // The command itself is good.
        let ended = folder.wv(&format!("{line} --out out"));
        assert_eq!((ended.status, ended.err.as_str()), (0, ""), "{line}");
        std::fs::remove_file(folder.path("out")).unwrap();
    }
    assert_eq!(
        folder.draws(),
        2,
        "the proof of the start, and the good one"
    );
}

/// Every input of every command with an output, in the output's place.
#[test]
fn inputs_are_not_replaced() {
    let folder = with_all("newcomers_inputs");
    let old_k = [2, 0, 1, 0, 1, 0, 1, 0, 2, 0, 2, 0, 0, 0, 1, 0, 0, 0];
    folder.write("old", &old_k);
    folder.write("y", &[0xf5, 1, 0]);
    folder.write("salt", &[3; 32]);
    folder.write("order", b"order 7");
    let all = "prove covers16.circuit row --shelf page --log log --message order --y y \
               --salt salt --statement asked";
    let known = [
        ("build asked", "asked"),
        ("row asked values", "asked values"),
        ("claim asked values", "asked values"),
        ("convert bristol", "bristol"),
        ("upgrade old", "old"),
        ("join covers16.circuit covers16.circuit", "covers16.circuit"),
        ("one-of covers16.circuit --outputs y", "covers16.circuit y"),
        (
            "evaluate covers16.circuit row --statement asked",
            "covers16.circuit row asked",
        ),
        (all, "covers16.circuit row page log order y salt asked"),
    ];
    let before = folder.files();
    for (line, inputs) in known {
        for input in inputs.split(' ') {
            let ended = folder.wv(&format!("{line} --out ./{input}"));
            ended.mistaken(&format!("--out ./{input} is the "));
            ended.mistaken("the output needs a file of its own");
            assert_eq!(folder.files(), before, "{line} --out {input}");
        }
    }
}

/// y by name, before the line of the proof.
#[test]
fn a_proof_with_its_statement() {
    let folder = Folder::with_shelf("newcomers_named");
    folder.write("asked", STATEMENT);
    pack(&folder, "on_hand=1000 order=250");
    let ended = folder.wv(&format!("{PROVE} --out proof --statement asked"));
    let len = folder.read("proof").len();
    ended.says(&format!(
        "covered=yes\norder=250\nproved f50100 in {len} bytes\n"
    ));
    // On standard output there is the proof alone.
    let ended = folder.wv(&format!("{PROVE} --out - --statement asked"));
    assert_eq!((ended.status, ended.err.as_str()), (0, ""));
    let check = "check covers16.circuit - --y hex:f50100 --message text:a";
    let checked = folder.wv_reading(check, &ended.out);
    checked.says("accepted, M 145, tau 66, n 8, soundness 128.0 bits\n");
    // Another statement's circuit, and no root for it.
    folder.write("other", b"row a: 32\nshow a\n");
    folder
        .wv(&format!("{PROVE} --out proof --statement other"))
        .unwanted("covers16.circuit is not what other asks");
    assert_eq!(folder.draws(), 2);
}

/// 249 on hand, 250 ordered. With a y it is refused by name and no root is drawn; without
/// one it is proved, and told.
#[test]
fn a_row_that_does_not_satisfy() {
    let folder = Folder::with_shelf("newcomers_unmet");
    folder.write("asked", STATEMENT);
    pack(&folder, "on_hand=249 order=250");
    let claimed = format!("{PROVE} --out proof --y hex:f50100");
    folder.wv(&format!("{claimed} --statement asked")).refused(
        10,
        "the witness row gives covered=no, and --y is covered=yes",
    );
    folder.write("bare", &[249, 0, 250, 0]);
    folder.wv(&claimed.replace(" row ", " bare ")).refused(
        10,
        "the witness bare gives f40100, and --y is f50100: `--statement` tells them by name",
    );
    // 251 ordered: both parts differ. 2 * 251 + 1 = 503 is f7 01.
    folder
        .wv(&format!(
            "{PROVE} --out proof --y hex:f70100 --statement asked"
        ))
        .refused(
            10,
            "gives covered=no order=250, and --y is covered=yes order=251",
        );
    assert_eq!(folder.draws(), 0);
    let ended = folder.wv(&format!("{PROVE} --out proof --statement asked"));
    ended.tells("note: covered is no for this row, and the proof shows it: with --y a row");
    assert!(ended
        .text()
        .starts_with("covered=no\norder=250\nproved f40100 in "));
    // Nothing is noted of what was asked for.
    let ended = folder.wv(&format!(
        "{PROVE} --out proof --statement asked --y hex:f40100"
    ));
    assert_eq!((ended.status, ended.err.as_str()), (0, ""));
}

/// An option behind an option in the place of its value, or nothing.
#[test]
fn a_value_is_missing() {
    let folder = Folder::with_shelf("newcomers_value");
    let line = "prove covers16.circuit row --shelf page --log log --message --out proof";
    folder.wv(line).mistaken(
        "`--message` needs a value, and `--out` is an option: --message MESSAGE, up to 4096 \
         bytes, as 'text:order 4711' or a file; a value that begins so is given as \
         --message=--out",
    );
    folder
        .wv("prove covers16.circuit row --shelf page --log log --out proof --message")
        .mistaken("`--message` needs a value: --message MESSAGE, up to 4096 bytes");
    folder
        .wv("shelf new a --log --slots 3")
        .mistaken("`--log` needs a value, and `--slots` is an option: --log LOG, the file that");
    folder
        .wv("evaluate covers16.circuit row --out --raw")
        .mistaken("`--out` needs a value, and `--raw` is an option");
    assert!(!folder.has("proof") && !folder.has("--slots") && !folder.has("--raw"));
    // As it is told.
    folder
        .wv("evaluate covers16.circuit row --out=--raw")
        .says("");
    assert!(folder.has("--raw"));
    // What is needed is told with what it is.
    folder
        .wv("evaluate covers16.circuit")
        .mistaken("an argument is missing: WITNESS");
    folder
        .wv("build covers16.circuit")
        .mistaken("`--out` is needed: --out CIRCUIT, where the circuit goes");
    folder
        .wv("check covers16.circuit row --message text:a")
        .mistaken("`--y` is needed: --y Y, the claimed output, as `wv claim` packs it");
    assert_eq!(folder.draws(), 0);
}

/// An output without `--out`, and an option that there is not.
#[test]
fn outputs_and_options() {
    let folder = Folder::with_circuit("newcomers_options");
    folder.write("asked", STATEMENT);
    folder.wv("build asked built").mistaken(
        "`built` is one argument too many: an output stands behind --out\nusage: wv build",
    );
    folder
        .wv("build asked built --out out")
        .mistaken("`built` is one argument too many\nusage: wv build");
    folder
        .wv("circuit asked built")
        .mistaken("`built` is one argument too many\nusage: wv circuit");
    folder
        .wv("evaluate covers16.circuit row -o y")
        .mistaken("no option `-o`: `wv evaluate` has --out, --statement, --raw, --help");
    assert!(!folder.has("built") && !folder.has("out") && !folder.has("y"));
}

/// The words of a text without quotes, wherever they stand.
#[test]
fn a_text_without_quotes() {
    let folder = Folder::with_shelf("newcomers_quotes");
    folder.write("asked", STATEMENT);
    let message = "`4711` stands alone behind `--message text:order`: a text with spaces in it \
                   is quoted, as in --message 'text:order 4711'";
    let check = "check covers16.circuit row --y hex:f50100";
    for line in [
        format!("{check} --message text:order 4711"),
        format!("{check} --message=text:order 4711 --bits 40"),
        PROVE.replace("text:a", "text:order 4711 --out proof"),
    ] {
        folder.wv(&line).mistaken(message);
    }
    folder
        .wv(&format!("{check} --message order 4711"))
        .mistaken(
            "`4711` stands alone behind `--message order`: a text is typed behind `text:`, and \
             quoted if it has spaces, as in --message 'text:order 4711'",
        );
    // Two words are as good as a circuit and a proof: that they are no files is told.
    folder
        .wv(&format!("{check} --message text:order no 4711"))
        .mistaken("as in --message 'text:order no 4711'");
    folder
        .wv("claim asked text:covered=yes order=250 --out y")
        .mistaken(
            "`order=250` stands alone behind `text:covered=yes`: a text with spaces in it is \
             quoted, as in 'text:covered=yes order=250'",
        );
    folder
        .wv("check covers16.circuit row --message text:a --y hex:f5 01 00")
        .mistaken("hexadecimal digits stand together, as in --y hex:f50100");
    // Files may stand behind a typed text.
    let ended = folder.wv("check --message text:order covers16.circuit row --y hex:f50100");
    ended.refused(11, "row is no proof");
    folder
        .wv("check --message text:order covers16.circuit row covers16.circuit --y hex:f50100")
        .mistaken("an argument is missing: PROOF");
    // A name with a slip in it there is no word of the text.
    for message in ["text:order", "-", "fd:0", "text:a"] {
        let ended = folder.wv(&format!(
            "check --y hex:f50100 --message {message} covers16.circiut row"
        ));
        ended.mistaken("covers16.circiut: No such file");
        assert!(!ended.err.contains("stands alone"), "{ended:?}");
    }
    assert!(!folder.has("proof") && !folder.has("y"));
    assert_eq!(folder.draws(), 0);
}
