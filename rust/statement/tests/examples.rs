//! The statements of the examples give the circuits of the examples, byte for byte.

use statement::{build, Built};

macro_rules! example {
    ($name:literal, $values:literal, $shown:literal) => {
        (
            $name,
            &include_bytes!(concat!("../../../examples/", $name, ".statement"))[..],
            &include_bytes!(concat!("../../../examples/", $name, ".circuit"))[..],
            &include_bytes!(concat!("../../../examples/", $name, ".row"))[..],
            $values,
            $shown,
        )
    };
}

/// The name, the files, the values of the row, and what is shown.
type Example = (
    &'static str,
    &'static [u8],
    &'static [u8],
    &'static [u8],
    &'static str,
    &'static str,
);

const GOODS: &str = "on_hand=1000 order=250 best_before=20045 today=20000";

fn examples() -> [Example; 7] {
    [
        example!(
            "covers16",
            "on_hand=1000 order=250",
            "covered=yes order=250"
        ),
        example!(
            "covers32",
            "on_hand=3000000000 order=2999999999",
            "covered=yes order=2999999999"
        ),
        example!(
            "fresh",
            "today=20000 best_before=20045",
            "in_date=yes today=20000"
        ),
        example!("enough", "", "covered=yes order=250"),
        example!("indate", "", "in_date=yes today=20000"),
        example!("both", "", "covered=yes order=250 in_date=yes today=20000"),
        example!("grade", "look=9 taste=12 size=12", "grade=33"),
    ]
}

fn shown(built: &Built, row: &[u8]) -> String {
    let mut y = vec![0; built.y.bits().div_ceil(8) as usize];
    reference::circuit::evaluate(&built.circuit, row, &mut y).expect("a legal circuit and row");
    let values = built.y.unpack(&y);
    let values: Vec<String> = values
        .iter()
        .map(|(name, value)| format!("{name}={value}"))
        .collect();
    values.join(" ")
}

#[test]
fn the_circuits_are_these() {
    for (name, text, circuit, row, values, expected) in examples() {
        let built = build(text).unwrap_or_else(|fault| panic!("{name}: {fault}"));
        assert!(built.circuit == circuit, "{name}");
        assert_eq!(built.notes, [], "{name}");
        let values = if values.is_empty() { GOODS } else { values };
        assert_eq!(
            built.row.pack(values.as_bytes()).expect(name),
            row,
            "{name}"
        );
        assert_eq!(shown(&built, row), expected, "{name}");
    }
}

/// The grade of every row, by hand: 21, 30 or 33.
#[test]
fn one_of_three_grades() {
    let text = include_bytes!("../../../examples/graded.statement");
    let built = build(text).expect("a statement");
    let sizes = reference::circuit::read(&built.circuit).expect("a legal circuit");
    // 9 for the two sums, at most 5 for each of three numbers of 6 bits.
    assert!(sizes.ands <= 9 + 3 * 5);
    for row in 0..1_u16 << 12 {
        let grade = (row & 15) + (row >> 4 & 15) + (row >> 8);
        let word = if [21, 30, 33].contains(&grade) {
            "yes"
        } else {
            "no"
        };
        assert_eq!(shown(&built, &row.to_le_bytes()), format!("graded={word}"));
    }
}

/// The statement that the documents begin with, and the one in the README.
#[test]
fn the_documents_have_statements() {
    let page = include_str!("../../../docs/statements.md");
    let first = page.split("```\n").nth(1).expect("a statement");
    let built = build(first.as_bytes()).expect("a statement");
    assert_eq!((built.row.bits(), built.y.bits()), (88, 18));
    assert_eq!(built.notes, []);
    let readme = include_str!("../../../README.md");
    let block = readme.split("```text\n").nth(1).expect("a statement");
    let text = block.split("```").next().expect("its end");
    let built = build(text.as_bytes()).expect("a statement");
    assert!(built.circuit == include_bytes!("../../../examples/both.circuit"));
    let values = include_bytes!("../../../examples/both.values");
    let row = built.row.pack(values).expect("values");
    assert_eq!(row, include_bytes!("../../../examples/both.row"));
}
