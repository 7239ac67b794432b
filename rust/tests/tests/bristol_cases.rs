//! Bristol Fashion texts by hand: every rule broken alone and in pairs, and what
//! becomes of the buffers.

use tests::bristol::{compare, converted, text_of};
use tests::circuits::fields;
use tests::random::Random;
use wivulameno::circuit::from_bristol_to_vec;

/// Three inputs in two groups, three gates, one group of two outputs.
const LINES: [&str; 6] = [
    "3 6",
    "2 2 1",
    "1 2",
    "2 1 0 1 3 XOR",
    "1 1 3 4 INV",
    "2 1 4 2 5 AND",
];

/// I 3, O 2, G 3, head 1; outputs 4 and 5; then the records.
const FILE: [u8; 72] = fields([
    3, 2, 3, 1, 4, 5, //
    1, 0, 1, 2, //
    3, 3, 0, 3, //
    2, 4, 2, 0,
]);

/// The number of a refusal, 0 for none, by both implementations.
fn number(text: impl AsRef<[u8]>) -> u32 {
    let answer = converted(&mut Random::new(1), text.as_ref());
    let allocated = from_bristol_to_vec(text.as_ref());
    assert_eq!(allocated.map_err(|refusal| refusal.number()), answer);
    answer.err().unwrap_or(0)
}

/// The text with other lines in these places.
fn with(changes: &[(usize, &str)]) -> String {
    let mut lines = LINES;
    for &(place, line) in changes {
        lines[place] = line;
    }
    text_of(&lines)
}

/// A place, a line that breaks a rule there whatever the other lines are, and the
/// number that it is refused with.
type Broken = (usize, &'static str, u32);

/// Header lines that are no line of numbers, or not of so many.
fn broken_headers() -> Vec<Broken> {
    let first = [
        "3",
        "3 6 0",
        "3 6 6",
        "03 6",
        "3 06",
        "00 6",
        "3  6",
        " 3 6",
        "3 6 ",
        "3\t6",
        "3 6\t",
        "3 6\r",
        "\r",
        "\t",
        " ",
        "  ",
        "3 6\0",
        "\0",
        "-3 6",
        "+3 6",
        "3 -6",
        "3 6.",
        "3.0 6",
        "0x3 6",
        "3,6",
        "3 six",
        "1000000000 6",
        "3 1000000000",
        "0000000003 6",
        "3 0000000006",
        "3 6 XOR",
        "XOR",
        "3\u{a0}6",
        "٣ 6",
        "\u{feff}3 6",
        "# 3 6",
    ];
    let inputs = [
        "2",
        "2 2",
        "2 2 1 0",
        "1 2 1",
        "0 2 1",
        "0 3",
        "02 2 1",
        "2 02 1",
        "2 2 01",
        "2 2 1 00",
        "3 2 1 00",
        "2  2 1",
        " 2 2 1",
        "2 2 1 ",
        "2 2 1\r",
        "2\t2 1",
        "2 2\t1",
        "2 2 1\0",
        " ",
        "\r",
        "2 2 -1",
        "2 2 +1",
        "2 2 1000000000",
        "1000000000 2 1",
        "2 2 x",
        "999999999 2 1",
        "4294967298 2 1",
        "XOR",
    ];
    let outputs = [
        "1",
        "1 1 1",
        "2 2",
        "0 2",
        "01 2",
        "1 02",
        "2 2 00",
        "1  2",
        " 1 2",
        "1 2 ",
        "1 2\r",
        "1\t2",
        "1 2\0",
        " ",
        "\r",
        "1 -2",
        "1 1000000000",
        "1000000000 2",
        "4294967297 2",
        "x",
        "1 7",
        "1 999999999",
        "2 2 5",
        "7 1 1 1 1 1 1 1",
    ];
    let all = [&first[..], &inputs, &outputs];
    let all = all.into_iter().enumerate();
    let all = all.flat_map(|(place, lines)| lines.iter().map(move |&line| (place, line, 22)));
    all.collect()
}

/// Sizes beyond our limits that break no rule on their line.
const BEYOND: [Broken; 7] = [
    (0, "100001 6", 24),
    (0, "100001 0", 24),
    (0, "131072 6", 24),
    (0, "999999999 999999999", 24),
    (2, "0", 24),
    (2, "1 0", 24),
    (2, "3 0 0 0", 24),
];

/// In the place of the first gate line, which writes wire 3 of six.
fn broken_gates() -> Vec<Broken> {
    let kinds = [
        "2 1 0 1 3 OR",
        "2 1 0 1 3 xor",
        "2 1 0 1 3 Xor",
        "2 1 0 1 3 XNOR",
        "2 1 0 1 3 NAND",
        "2 1 0 1 3 XORR",
        "2 1 0 1 3 XO",
        "1 1 0 3 NOT",
        "1 1 0 3 EQ",
        "1 1 1 3 EQ",
        "1 1 0 3 EQW",
        "4 2 0 1 0 2 3 4 MAND",
        "2 1 0 1 3 XOR ",
        "2 1 0 1 3 XOR  ",
        "2 1 0 1 3 XOR\r",
        "2 1 0 1 3 XOR\t",
        "2 1 0 1 3 XOR\0",
        "2 1 0 1 3\tXOR",
        "2 1 0 1 3 \tXOR",
        "2 1 0 1 3",
        "2\t1\t0\t1\t3\tXOR",
        "3",
        " ",
        "  ",
        "\r",
        "\t",
        "\0",
        "OR",
        "2 1 0 1 3 XOR AND\r",
        "2 1 0 1 3 XOR XOR,",
        "2 1 0 1 3 \u{ff38}OR",
    ];
    let rules = [
        "XOR",
        "AND",
        "INV",
        " XOR",
        "  XOR",
        "3 XOR",
        "2 1 XOR",
        "2 1 0 1 XOR",
        "2 1 0 1 3 3 XOR",
        "2 1 0 1 3 INV",
        "1 1 0 3 XOR",
        "1 1 0 3 AND",
        "1 1 0 INV",
        "1 1 0 1 3 INV",
        "2 1 0 3 INV",
        "1 1 0 1 3 XOR",
        "3 1 0 1 2 3 XOR",
        "2 2 0 1 3 XOR",
        "2 2 0 1 3 4 XOR",
        "2 0 0 1 3 XOR",
        "1 2 0 3 INV",
        "0 1 3 XOR",
        "2 1 0 1 3  XOR",
        "2  1 0 1 3 XOR",
        " 2 1 0 1 3 XOR",
        "2 1 0 1 3\t XOR",
        "2 1 0\t1 3 XOR",
        "2 1 0 1\0 3 XOR",
        "2\r 1 0 1 3 XOR",
        "02 1 0 1 3 XOR",
        "2 01 0 1 3 XOR",
        "2 1 00 1 3 XOR",
        "2 1 0 01 3 XOR",
        "2 1 0 1 03 XOR",
        "2 1 0 1 0000000003 XOR",
        "2 1 +0 1 3 XOR",
        "2 1 -0 1 3 XOR",
        "2 1 a b c XOR",
        "2 1 0 1 3 XOR XOR",
        "2 1 0 1 3 OR XOR",
        "2 1 0 1 3 AND INV",
        // Writes an input, or no wire.
        "2 1 0 1 0 XOR",
        "2 1 0 1 2 XOR",
        "2 1 0 1 6 XOR",
        "2 1 0 1 7 XOR",
        "1 1 0 6 INV",
        "2 1 0 1 999999999 XOR",
        "2 1 0 1 65539 XOR",
        "2 1 0 1 1000000000 XOR",
        "2 1 0 1 4294967299 XOR",
        // Reads the wire that it writes, one that is written later, or no wire.
        "2 1 3 1 3 XOR",
        "2 1 0 3 3 XOR",
        "1 1 3 3 INV",
        "2 1 4 1 3 XOR",
        "2 1 0 5 3 XOR",
        "1 1 4 3 INV",
        "2 1 6 1 3 XOR",
        "2 1 0 6 3 XOR",
        "1 1 6 3 INV",
        "2 1 65536 1 3 XOR",
        "2 1 0 999999999 3 XOR",
        "2 1 0 4294967297 3 XOR",
        "1 1 1000000000 3 INV",
    ];
    let kinds = kinds.iter().map(|&line| (3, line, 23));
    let rules = rules.iter().map(|&line| (3, line, 22));
    kinds.chain(rules).collect()
}

/// In the places of the other gate lines.
const LATER_GATES: [Broken; 12] = [
    (4, "1 1 3 3 INV", 22),
    (4, "1 1 4 4 INV", 22),
    (4, "2 1 3 4 4 XOR", 22),
    (4, "2 1 3 0 3 XOR", 22),
    (4, "1 1 5 4 INV", 22),
    (4, "1 1 3 4 EQW", 23),
    (5, "2 1 4 2 4 AND", 22),
    (5, "2 1 4 2 3 AND", 22),
    (5, "2 1 5 2 5 AND", 22),
    (5, "2 1 4 5 5 AND", 22),
    (5, "2 1 5 5 5 AND", 22),
    (5, "2 1 4 2 5 NAND", 23),
];

fn all_broken() -> Vec<Broken> {
    let all = [
        &broken_headers()[..],
        &BEYOND,
        &broken_gates(),
        &LATER_GATES,
    ];
    all.concat()
}

#[test]
fn a_text_that_obeys() {
    let mut random = Random::new(2);
    let file = converted(&mut random, text_of(&LINES).as_bytes());
    assert_eq!(file, Ok(FILE.to_vec()));
}

#[test]
fn each_rule_broken_alone() {
    for (place, line, expected) in all_broken() {
        let text = with(&[(place, line)]);
        assert_eq!(number(&text), expected, "{text:?}");
    }
}

/// Two faults on two lines: the first in the order of the lines.
#[test]
fn two_lines_broken() {
    let all = all_broken();
    for &(place, line, expected) in &all {
        for &(later, other, _) in all.iter().filter(|broken| broken.0 > place) {
            let text = with(&[(place, line), (later, other)]);
            assert_eq!(number(&text), expected, "{text:?}");
        }
    }
}

/// The number of the first fault stays the same where the last line has no end.
#[test]
fn a_broken_line_before_an_unended_one() {
    for (place, line, expected) in all_broken() {
        let mut text = with(&[(place, line)]);
        text.pop();
        assert_eq!(number(&text), expected, "{text:?}");
    }
}

/// Two faults on one line: 22 before 24 in the header, 23 before 22 on a gate line.
#[test]
fn one_line_broken_twice() {
    let known: [(&[(usize, &str)], u32); 24] = [
        (&[(0, "100001 06")], 22),
        (&[(0, "100001 6 ")], 22),
        (&[(0, " 100001 6")], 22),
        (&[(0, "100001  6")], 22),
        (&[(0, "100001")], 22),
        (&[(0, "100001 6 0")], 22),
        (&[(0, "100001 1000000000")], 22),
        // The wires are no I + G, and I is beyond the limits.
        (&[(0, "3 515"), (1, "1 513")], 22),
        (&[(0, "3 516"), (1, "2 513")], 22),
        (&[(0, "3 516"), (1, "1 513 ")], 22),
        (&[(0, "3 6"), (1, "0")], 22),
        (&[(0, "3 3"), (1, "0 0")], 22),
        (&[(0, "3 3"), (1, "0 ")], 22),
        (&[(0, "3 3"), (1, "2 0")], 22),
        // More outputs than wires, and more than the limit.
        (&[(2, "1 257")], 22),
        (&[(2, "1 00")], 22),
        (&[(2, "0 0")], 22),
        (&[(2, "1 0 ")], 22),
        (&[(3, "2 1 0 9 3 OR")], 23),
        (&[(3, "2 1 0 01 3 EQ")], 23),
        (&[(3, " 2 1 0 1 3 XOR ")], 23),
        (&[(3, "2 1 3 3 0 NAND")], 23),
        (&[(3, "4 2 0 9 0 2 0 0 MAND")], 23),
        (&[(4, "1  1 9 3 EQW")], 23),
    ];
    for (changes, expected) in known {
        let text = with(changes);
        assert_eq!(number(&text), expected, "{text:?}");
    }
}

/// Whatever else is wrong with a gate line, an unknown kind comes first.
#[test]
fn an_unknown_kind_comes_first() {
    let gates = [&broken_gates()[..], &LATER_GATES].concat();
    for (place, line, _) in gates {
        let before = line.rfind(' ').map_or("", |space| &line[..=space]);
        for kind in [
            "", "OR", "MAND", "EQ", "EQW", "XOR\r", "XOR\t", "XOR\0", "7",
        ] {
            let other = format!("{before}{kind}");
            if other.is_empty() {
                continue;
            }
            let text = with(&[(place, &other)]);
            assert_eq!(number(&text), 23, "{text:?}");
            let unended = text
                .split_inclusive('\n')
                .take(place + 1)
                .collect::<String>();
            assert_eq!(number(unended.trim_end_matches('\n')), 23, "{unended:?}");
        }
    }
}

/// Sums that are tested on a line below.
#[test]
fn wires_and_inputs() {
    let known: [(&[(usize, &str)], u32); 17] = [
        (&[(0, "4 6")], 22),
        (&[(0, "2 6")], 22),
        (&[(0, "3 5")], 22),
        (&[(0, "3 7")], 22),
        (&[(0, "0 6")], 22),
        (&[(0, "100000 6")], 22),
        (&[(0, "3 65542")], 22),
        (&[(1, "2 2 2")], 22),
        (&[(1, "2 2 0")], 22),
        (&[(1, "1 65539")], 22),
        (&[(1, "1 999999999")], 22),
        (&[(0, "3 516"), (1, "1 513")], 24),
        (&[(0, "3 65542"), (1, "1 65539")], 24),
        (&[(0, "3 999999999"), (1, "1 999999996")], 24),
        (&[(0, "3 3"), (1, "0")], 24),
        (&[(0, "3 3"), (1, "1 0")], 24),
        (&[(0, "3 3"), (1, "2 0 0")], 24),
    ];
    for (changes, expected) in known {
        let text = with(changes);
        assert_eq!(number(&text), expected, "{text:?}");
    }
}

/// 2^32 + 3 inputs, 2^32 + 2 outputs: a sum of 32 bits would be right.
#[test]
fn sums_do_not_wrap() {
    let four = "5 999999999 999999999 999999999 999999999";
    let inputs = format!("{four} 294967303");
    assert_eq!(4 * 999_999_999 + 294_967_303_u64, (1 << 32) + 3);
    assert_eq!(number(with(&[(1, &inputs)])), 22);
    let outputs = format!("{four} 294967302");
    assert_eq!(number(with(&[(2, &outputs)])), 22);
}

/// The groups say how the inputs and outputs are divided, and no more.
#[test]
fn groups_of_every_size() {
    let mut random = Random::new(3);
    let many_inputs = format!("100003 1 1 1{}", " 0".repeat(100_000));
    let many_outputs = format!("100002{} 1 1", " 0".repeat(100_000));
    let inputs = [
        "1 3",
        "3 1 1 1",
        "3 2 0 1",
        "4 0 0 3 0",
        "2 0 3",
        &many_inputs,
    ];
    for line in inputs {
        let text = with(&[(1, line)]);
        assert_eq!(converted(&mut random, text.as_bytes()), Ok(FILE.to_vec()));
    }
    for line in ["2 1 1", "3 0 2 0", "2 2 0", &many_outputs] {
        let text = with(&[(2, line)]);
        assert_eq!(converted(&mut random, text.as_bytes()), Ok(FILE.to_vec()));
    }
}

/// All wires are outputs, inputs too.
#[test]
fn outputs_are_the_last_wires() {
    let mut random = Random::new(4);
    for outputs in 1..=6 {
        let text = with(&[(2, &format!("1 {outputs}"))]);
        let mut file = vec![3, outputs, 3, 1];
        file.extend(6 - outputs..6);
        let mut file: Vec<u8> = file.into_iter().flat_map(u32::to_le_bytes).collect();
        file.extend(&FILE[24..]);
        assert_eq!(converted(&mut random, text.as_bytes()), Ok(file));
    }
}

/// Wire 5 is written first, then 3, then 4.
#[test]
fn slots_are_the_wires_and_the_chain_is_the_text() {
    let gates = [
        (3, "2 1 0 1 5 XOR"),
        (4, "1 1 5 3 INV"),
        (5, "2 1 3 2 4 AND"),
    ];
    let file: [u8; 72] = fields([
        3, 2, 3, 3, 4, 5, // head and outputs
        3, 5, 0, 2, // slot 1
        2, 3, 2, 0, // slot 2
        1, 0, 1, 1, // slot 3
    ]);
    let file = file.to_vec();
    let text = with(&gates);
    assert_eq!(converted(&mut Random::new(5), text.as_bytes()), Ok(file));
    // The lines in the order of the wires: wire 5 is not written above.
    let by_wires = with(&[(3, gates[1].1), (4, gates[2].1), (5, gates[0].1)]);
    assert_eq!(number(&by_wires), 22);
}

#[test]
fn a_gate_may_read_a_wire_twice() {
    let text = with(&[(3, "2 1 1 1 3 XOR"), (5, "2 1 4 4 5 AND")]);
    assert_eq!(number(text), 0);
}

#[test]
fn empty_lines_are_skipped_everywhere() {
    let mut random = Random::new(6);
    for place in 0..=LINES.len() {
        for count in [1, 2, 1000] {
            let mut lines = LINES.to_vec();
            lines.splice(place..place, vec![""; count]);
            let text = text_of(&lines);
            assert_eq!(converted(&mut random, text.as_bytes()), Ok(FILE.to_vec()));
        }
    }
    let everywhere = text_of(&LINES).replace('\n', "\n\n\n");
    let text = format!("\n\n{everywhere}");
    assert_eq!(converted(&mut random, text.as_bytes()), Ok(FILE.to_vec()));
}

/// It is a line: a wrong one, in the header 22, among the gates of an empty kind,
/// at the end one too many.
#[test]
fn a_line_of_spaces_is_not_empty() {
    for line in [" ", "   ", "\r", "\t", "\0"] {
        for place in 0..=LINES.len() {
            let mut lines = LINES.to_vec();
            lines.insert(place, line);
            let expected = match place {
                0..3 => 22,
                3..6 => 23,
                _ => 22,
            };
            let text = text_of(&lines);
            assert_eq!(number(&text), expected, "{text:?}");
        }
    }
}

#[test]
fn carriage_returns() {
    let text = text_of(&LINES).replace('\n', "\r\n");
    assert_eq!(number(text), 22);
    let in_gates = text_of(&LINES).replace("XOR\n", "XOR\r\n");
    assert_eq!(number(in_gates), 23);
    assert_eq!(number(text_of(&LINES).replace('\n', "\r")), 22);
}

#[test]
fn one_line_too_many() {
    let more = [
        "2 1 0 1 3 XOR",
        "2 1 0 1 6 XOR",
        "2 1 0 1 6 AND",
        "1 1 0 6 INV",
        "1 1 0 6 EQW",
        "1 1 0 6 EQ",
        "4 2 0 1 0 2 6 7 MAND",
        "2 1 0 1 6 OR",
        "OR",
        "XOR",
        "3 6",
        "2 2 1",
        "1 2",
        "0",
        "100001 6",
        " ",
        "\r",
        "\t",
        "\0",
        "x",
        "# end",
    ];
    for line in more {
        for text in [text_of(&LINES), "0 3\n1 3\n1 2\n".into()] {
            assert_eq!(number(&text), 0);
            for ends in ["", "\n", "\nXOR\n"] {
                let text = format!("{text}\n{line}{ends}");
                assert_eq!(number(&text), 22, "{text:?}");
            }
        }
    }
}

/// A line of the header twice: the second is read as the line below it.
#[test]
fn one_header_line_too_many() {
    let known = [
        // Three groups, of which one has a size.
        ("3 6\n3 6\n2 2 1\n1 2\n", 22),
        // Two groups of outputs, then a gate line of kind 2.
        ("3 6\n2 2 1\n2 2 1\n1 2\n", 23),
        ("3 6\n2 2 1\n1 2\n1 2\n", 23),
        ("0 3\n0 3\n1 3\n1 2\n", 22),
        ("0 3\n1 3\n1 3\n1 2\n", 22),
        ("0 3\n1 3\n1 2\n1 2\n", 22),
    ];
    for (header, expected) in known {
        let text = format!("{header}{}", text_of(&LINES[3..]));
        assert_eq!(number(&text), expected, "{text:?}");
        assert_eq!(number(header), expected, "{header:?}");
    }
}

/// Every start of the text. On a gate line that is cut off, what follows its last
/// space is tested first.
#[test]
fn a_text_that_ends_early() {
    let text = text_of(&LINES);
    let kinds = ["XOR", "AND", "INV"];
    let [mut broken, mut unknown] = [0; 2];
    for len in 0..text.len() {
        let start = &text[..len];
        let line = start.rsplit('\n').next().unwrap_or("");
        let kind = line.rsplit(' ').next().unwrap_or("");
        let is_gate = start.matches('\n').count() >= 3 && !line.is_empty();
        let expected = match is_gate && !kinds.contains(&kind) {
            true => 23,
            false => 22,
        };
        assert_eq!(number(start), expected, "{start:?}");
        broken += usize::from(expected == 22);
        unknown += usize::from(expected == 23);
    }
    // The header has 14 bytes. A gate line is known before its first byte, and when
    // its kind is whole.
    assert_eq!((broken, unknown), (14 + 3 * 2, text.len() - 14 - 3 * 2));
}

#[test]
fn no_last_line_feed() {
    let known = [
        ("3 6", 22),
        ("100001 6", 22),
        ("3 6\n2 2 1", 22),
        ("3 516\n1 513", 22),
        ("3 6\n2 2 1\n1 2", 22),
        ("3 6\n2 2 1\n0", 22),
        ("0 3\n1 3\n1 2", 22),
        ("1 4\n1 3\n1 2\n1 1 0 3 INV", 22),
        ("1 4\n1 3\n1 2\n1 1 0 3 EQ", 23),
        ("1 4\n1 3\n1 2\n1 1 9 3 EQ", 23),
        ("1 4\n1 3\n1 2\n1 1 0 3 ", 23),
        ("1 4\n1 3\n1 2\nINV", 22),
        ("1 4\n1 3\n1 2\n1 1 0 3 INV\n", 0),
    ];
    for (text, expected) in known {
        assert_eq!(number(text), expected, "{text:?}");
    }
}

#[test]
fn nothing_at_all() {
    for text in ["", "\n", "\n\n\n\n"] {
        assert_eq!(number(text), 22);
    }
    for text in [" ", "\0", "\r\n", "x"] {
        assert_eq!(number(text), 22);
    }
}

/// The outputs are the last inputs.
#[test]
fn no_gates() {
    let mut random = Random::new(7);
    let file: [u8; 24] = fields([3, 2, 0, 0, 1, 2]);
    let file = file.to_vec();
    let text = b"0 3\n1 3\n1 2\n";
    assert_eq!(converted(&mut random, text), Ok(file));
    let one: [u8; 20] = fields([1, 1, 0, 0, 0]);
    let one = one.to_vec();
    assert_eq!(converted(&mut random, b"0 1\n1 1\n1 1\n"), Ok(one));
    assert_eq!(number("0 1\n1 1\n1 2\n"), 22);
    assert_eq!(number("0 0\n0\n0\n"), 24);
    assert_eq!(number("0 0\n1 0\n0\n"), 24);
}

/// So many inputs in one group, outputs in one group, and gates, all INV of wire 0.
fn of_sizes(inputs: usize, outputs: usize, gates: usize) -> String {
    let wires = inputs + gates;
    let mut lines = vec![
        format!("{gates} {wires}"),
        format!("1 {inputs}"),
        format!("1 {outputs}"),
    ];
    lines.extend((inputs..wires).map(|wire| format!("1 1 0 {wire} INV")));
    text_of(&lines)
}

#[test]
fn limits() {
    let known = [
        ([1, 1, 0], 0),
        ([512, 1, 1], 0),
        ([513, 1, 1], 24),
        ([512, 256, 0], 0),
        ([300, 257, 0], 24),
        ([1, 256, 300], 0),
        ([1, 257, 300], 24),
        ([1, 257, 255], 22),
        ([1, 256, 255], 0),
        ([1, 1, 4096], 0),
        ([1, 1, 4097], 0),
        ([1, 1, 65_536], 0),
        ([1, 1, 90_000], 0),
        ([1, 1, 100_000], 0),
        ([1, 1, 100_001], 24),
        ([512, 256, 100_000], 0),
        ([513, 256, 100_000], 24),
        ([512, 257, 100_000], 24),
        ([512, 256, 100_001], 24),
        ([513, 257, 100_001], 24),
        ([0, 1, 100_000], 24),
        ([512, 0, 100_000], 24),
    ];
    for ([inputs, outputs, gates], expected) in known {
        let text = of_sizes(inputs, outputs, gates);
        assert_eq!(number(text), expected, "{inputs} {outputs} {gates}");
    }
    let largest = converted(&mut Random::new(8), of_sizes(512, 256, 100_000).as_bytes());
    let file = largest.expect("within the limits");
    assert_eq!(file.len(), 16 + 4 * 256 + 16 * 100_000);
    assert_eq!(wivulameno::circuit::read(&file), Ok([512, 256, 100_000, 0]));
}

/// On the line of G, before any other line is looked at.
#[test]
fn gates_beyond_the_limit_come_first() {
    let with_gates = of_sizes(1, 1, 100_001);
    let header = with_gates.lines().next().expect("a line");
    for rest in ["", "x\n", "1 1\n1 1\n"] {
        assert_eq!(number(format!("{header}\n{rest}")), 24);
    }
    assert_eq!(number(format!("{header} \n")), 22);
}

/// 6 for every length under the file's; beyond it, bytes stay.
#[test]
fn the_output_comes_last() {
    let mut random = Random::new(9);
    let text = text_of(&LINES);
    for len in 0..FILE.len() {
        assert_eq!(compare(&mut random, text.as_bytes(), len), Err(6), "{len}");
    }
    for len in [72, 73, 88, 4096] {
        let (out, written) = compare(&mut random, text.as_bytes(), len).expect("room");
        assert_eq!((written, &out[..72]), (72, &FILE[..]));
        let mut lent = vec![0x5a; len];
        let ours = wivulameno::circuit::from_bristol(text.as_bytes(), &mut lent);
        assert_eq!(ours, Ok(72));
        assert!(lent[..72] == FILE && lent[72..].iter().all(|&byte| byte == 0x5a));
    }
    for (place, line, expected) in all_broken() {
        let text = with(&[(place, line)]);
        for len in [0, 71] {
            let answer = compare(&mut random, text.as_bytes(), len);
            assert_eq!(answer, Err(expected), "{text:?}");
        }
    }
    assert_eq!(compare(&mut random, b"", 0), Err(22));
}
