//! Conversion of Bristol Fashion texts.

use crate::rows::{call, megabytes_per_second, Row, Table, ROUNDS};
use std::hint::black_box;

/// The gates of the long text.
const GATES: usize = 4096;

/// Room for its circuit.
const ROOM: usize = 16 + 4 * 256 + 16 * GATES;

/// 512 inputs, 256 outputs and gates of all three kinds, each of which reads wires far
/// apart.
pub fn of_gates() -> String {
    let mut text = format!("{GATES} {}\n2 256 256\n1 256\n\n", 512 + GATES);
    for c in 512..512 + GATES {
        let (a, b) = (c * 7 % c.min(600), c * 5 / 6);
        text += &match c % 3 {
            0 => format!("2 1 {a} {b} {c} XOR\n"),
            1 => format!("2 1 {a} {b} {c} AND\n"),
            _ => format!("1 1 {a} {c} INV\n"),
        };
    }
    text
}

/// No gates, and a long line of groups.
pub fn of_groups() -> String {
    let groups = " 0".repeat(GATES * 10);
    format!("0 1\n{}{groups} 1\n1 1\n", GATES * 10 + 1)
}

pub fn table<'a>(texts: &[(&str, &'a str)]) -> Table<'a> {
    let rows = texts.iter().map(|&(name, text)| row(name, text));
    Table {
        title: "MB/s of text; B is a byte, MB a million".into(),
        rounds: ROUNDS,
        told: megabytes_per_second,
        rows: rows.collect(),
    }
}

fn row<'a>(name: &str, text: &'a str) -> Row<'a> {
    let bytes = text.as_bytes();
    let ours = call(ROOM, move |out| {
        wivulameno::circuit::from_bristol(black_box(bytes), out).expect("no refusal");
    });
    let second = call(ROOM, move |out| {
        reference::bristol::convert(black_box(bytes), out).expect("no refusal");
    });
    Row {
        name: format!("convert {name}, {} B", bytes.len()),
        amount: bytes.len(),
        batch: 1,
        calls: [Some(ours), Some(second), None],
    }
}

#[cfg(test)]
mod tests {
    use super::*;

    /// The sizes that the titles of the rows say.
    #[test]
    fn texts_are_good() {
        let sizes = [of_gates(), of_groups()].map(|text| {
            let mut file = vec![0; ROOM];
            let len = reference::bristol::convert(text.as_bytes(), &mut file).expect("a text");
            let sizes = reference::circuit::read(&file[..len]).expect("a circuit");
            [sizes.inputs, sizes.outputs, sizes.gates]
        });
        assert_eq!(sizes, [[512, 256, 4096], [1, 1, 0]]);
    }
}
