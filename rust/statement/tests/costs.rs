//! How many AND gates an operation has, against the textbook's numbers.

use statement::build;

/// The AND gates of a statement.
fn ands(text: &str) -> u32 {
    let built = build(text.as_bytes()).unwrap_or_else(|fault| panic!("{fault}: {text}"));
    let sizes = reference::circuit::read(&built.circuit).expect("a legal circuit");
    sizes.ands as u32
}

/// The AND gates of what is shown of two fields.
fn of_two(a: u32, b: u32, shown: &str) -> u32 {
    ands(&format!("row a: {a}, b: {b} show s = {shown}"))
}

/// The AND gates of what is shown of one field.
fn of_one(width: u32, shown: &str) -> u32 {
    ands(&format!("row a: {width} show s = {shown}"))
}

#[test]
fn comparisons_have_one_a_bit() {
    for n in [1, 2, 3, 8, 16, 32, 64, 128] {
        for sign in ["<", "<=", ">", ">="] {
            assert_eq!(of_two(n, n, &format!("a {sign} b")), n, "{n} {sign}");
        }
        for sign in ["==", "!="] {
            assert_eq!(of_two(n, n, &format!("a {sign} b")), n - 1, "{n} {sign}");
        }
    }
    // The wider of the two counts.
    assert_eq!(of_two(8, 16, "a >= b"), 16);
    assert_eq!(of_two(16, 8, "a < b"), 16);
    assert_eq!(of_two(16, 8, "a == b"), 15);
}

#[test]
fn sums_have_one_a_bit() {
    for n in [1, 2, 3, 8, 16, 32, 64, 127] {
        assert_eq!(of_two(n, n, "a + b"), n, "{n}");
        // One more has its carry for nothing at the first bit.
        assert_eq!(of_one(n, "a + 1"), n - 1, "{n}");
        // Twice a number is its bits, moved.
        assert_eq!(of_one(n, "a + a"), 0, "{n}");
    }
    assert_eq!(of_two(16, 8, "a + b"), 16);
    assert_eq!(of_two(8, 16, "a + b"), 16);
    // 8 is 1000: three bits stay as they are.
    assert_eq!(of_one(16, "a + 8"), 12);
    assert_eq!(of_one(16, "a + 0"), 0);
    // 4 bits and 4, then 5 and 4.
    assert_eq!(ands("row a: 4, b: 4, c: 4 show s = a + b + c"), 9);
    // Two sums of 4 bits, and one of 5.
    assert_eq!(
        ands("row a: 4, b: 4, c: 4, d: 4 show s = a + b + c + d"),
        13
    );
    // The narrow ones first, wherever they stand: 4, then 5 and 16.
    for sum in ["a + b + c", "b + c + a", "c + a + b"] {
        assert_eq!(ands(&format!("row a: 16, b: 4, c: 4 show s = {sum}")), 20);
    }
    // Five numbers up to 3: 3 + 3, 3 + 3, 3 + 6, then 6 + 9 is at most 15, with no carry out.
    let five = "row a: 2, b: 2, c: 2, d: 2, e: 2 show s = a + b + c + d + e";
    assert_eq!(ands(five), 2 + 2 + 3 + 3);
}

/// A comparison with a constant: the low zeros of the constant, and the bit above them,
/// are for nothing.
#[test]
fn constants_are_folded() {
    let known = [
        ("a >= 1", 15),
        ("a >= 250", 14),
        ("a < 250", 14),
        ("a > 249", 14),
        ("a <= 249", 14),
        ("250 <= a", 14),
        ("a >= 256", 7),
        ("a >= 32768", 0),
        ("a >= 65535", 15),
        ("a == 250", 15),
        ("a == 0", 15),
        ("a != 65535", 15),
        // Always the same.
        ("a >= 0", 0),
        ("a < 65536", 0),
        ("a == 65536", 0),
        ("a + 10 >= 10", 0),
        ("a == a", 0),
        ("a < a", 0),
        ("5 >= 3", 0),
        // What is always so takes what is joined to it with it.
        ("a >= 250 and a >= 65536", 0),
        ("a >= 250 or a < 65536", 0),
        ("a >= 250 and a < 65536", 14),
    ];
    for (shown, expected) in known {
        assert_eq!(of_one(16, shown), expected, "{shown}");
    }
    // 150 is even: two carries.
    assert_eq!(of_one(4, "a + 100 + 50"), 2);
    // The constants of a sum are one: 250, then a comparison of 17 bits.
    for sum in ["a + 100 + 50 + 100", "100 + a + 150", "a + (100 + 150)"] {
        assert_eq!(of_two(16, 16, &format!("{sum} >= b")), 14 + 17, "{sum}");
    }
}

#[test]
fn lists_have_one_equality_for_each() {
    let known = [
        ("a in (7)", 15),
        ("a in (7, 7)", 15),
        ("a not in (7)", 15),
        // 4096 + 5 and 2048 + 8: nothing of their low bits is shared.
        ("a in (4101, 2056)", 30),
        // Two thresholds: 100 is 25 * 4, 200 is 25 * 8.
        ("a in (100 to 199)", 13 + 12),
        ("a in (0 to 199)", 12),
        ("a in (100 to 65535)", 13),
        ("a in (100 to 70000)", 13),
        ("a in (0 to 65535)", 0),
        ("a in (70000)", 0),
        // One range.
        ("a in (100 to 150, 151, 140 to 199)", 13 + 12),
        // 1 and 2 to 4: below 5, and not 0.
        ("a in (1, 2 to 4)", 15 + 15),
    ];
    for (shown, expected) in known {
        assert_eq!(of_one(16, shown), expected, "{shown}");
    }
}

#[test]
fn one_for_each_and_and_or() {
    let bits = "row a: 1, b: 1, c: 1, d: 1 show s = ";
    let known = [
        ("a == 1", 0),
        ("not a == 1", 0),
        ("a == 1 and b == 1", 1),
        ("a == 1 or b == 0", 1),
        ("not (a == 1 and not b == 1)", 1),
        ("a == 1 and b == 1 and c == 1 and d == 1", 3),
        ("a == 1 or b == 1 and c == 1 or d == 1", 3),
    ];
    for (shown, expected) in known {
        assert_eq!(ands(&format!("{bits}{shown}")), expected, "{shown}");
    }
}

#[test]
fn common_parts_are_built_once() {
    let row = "row a: 16, b: 16, c: 16 ";
    let known = [
        ("show x = a >= b, y = a < b", 16),
        ("show x = a >= b, y = a >= b and c >= 5", 16 + 15 + 1),
        ("show x = a == b, y = a != b", 15),
        ("show x = a == b, y = b == a", 15),
        ("show x = a + b, y = a + b >= c", 16 + 17),
        ("let s = a + b show x = s >= c, y = s == c", 16 + 17 + 16),
        ("show x = a + b >= c, y = b + a >= c", 16 + 17),
    ];
    for (shown, expected) in known {
        assert_eq!(ands(&format!("{row}{shown}")), expected, "{shown}");
    }
}

/// No gate is left that no output needs.
#[test]
fn nothing_is_built_in_vain() {
    let built = build(b"row a: 16, b: 16 show x = a >= b and a >= 65536, a").expect("a statement");
    // A constant: wire 0 XOR itself.
    let sizes = reference::circuit::read(&built.circuit).expect("a legal circuit");
    assert_eq!((sizes.gates, sizes.ands), (1, 0));
    let built = build(b"row a: 16 show a").expect("a statement");
    assert_eq!(built.circuit.len(), 16 + 4 * 16);
}
