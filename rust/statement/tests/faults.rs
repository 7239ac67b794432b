//! Every fault, with its line and column.

use statement::{build, Fault, Place, MAX_DEPTH};

/// The text has this fault at the place of the mark `^`, which is taken out of it; a text
/// without a mark, at its end.
fn assert_fault(marked: &[u8], expected: &str) {
    let mark = marked.iter().position(|&byte| byte == b'^');
    let mut text = marked.to_vec();
    if let Some(mark) = mark {
        text.remove(mark);
    }
    let before = String::from_utf8_lossy(&marked[..mark.unwrap_or(marked.len())]).into_owned();
    let line = before.split('\n').count();
    let column = before
        .split('\n')
        .next_back()
        .expect("a line")
        .chars()
        .count()
        + 1;
    let shown = String::from_utf8_lossy(marked);
    let fault = build(&text).err();
    let fault = fault.unwrap_or_else(|| panic!("no fault in {shown}"));
    assert_eq!(fault.text, expected, "{shown}");
    assert_eq!(fault.place, Place { line, column }, "{shown}: {expected}");
}

fn assert_faults(known: &[(&str, &str)]) {
    for (marked, expected) in known {
        assert_fault(marked.as_bytes(), expected);
    }
}

#[test]
fn a_fault_tells_its_place() {
    let fault: Fault = build(b"row a: 4\n  show b").expect_err("no b");
    assert_eq!(
        fault.to_string(),
        "line 2, column 8: `b` stands for nothing up to here: `show b = ..` says what it is"
    );
}

#[test]
fn words_and_signs() {
    let unseen = "a character that is not seen, U+";
    let end = "a line's end of its own: write LF, or CR LF";
    assert_faults(&[
        ("row ^7a: 4 show a", "`7a` begins with a digit and is no number: a number has digits alone, a name begins with a letter"),
        ("row a: 4 show b = a >= ^0x10", "`0x10` begins with a digit and is no number: a number has digits alone, a name begins with a letter"),
        ("row a: ^04 show a", "`04`: a number begins with no 0: write `4`"),
        ("row a: 4 show b = a in (^00)", "`00`: a number begins with no 0: write `0`"),
        ("row a: 4\nshow b = a < ^340282366920938463463374607431768211456", "`340282366920938463463374607431768211456` has more than 128 bits"),
        ("row a: 4, b: 4 show c = a ^- b >= 3", "`-` cannot stand here: no number is negative: `a - b >= c` is written `a >= b + c`, and a name has `_`"),
        ("row a: 4 show b = ^! a == 3", "`!` cannot stand here: `not` stands before a condition, `!=` between two numbers"),
        ("row a: 4 show b = a == 3 ^&& a == 4", "`&` cannot stand here: write `and`"),
        ("row a: 4 show b = a == 3 ^|| a == 4", "`|` cannot stand here: write `or`"),
        ("row gr^öße: 4 show größe", "`ö` cannot stand here: names have the letters a to z and A to Z, digits and `_`"),
        ("row a: 4^; show a", "`;` cannot stand here: a part of a statement ends where the next begins, without a sign"),
        ("row a: 4^$ show a", "`$` cannot stand here: it has no meaning"),
        ("row a: 4 show a ^* 2", "`*` cannot stand here: there is no product: twice a number is the sum `a + a`"),
        ("row a: 4\nshow c = a ^/ 2 >= 3", "`/` cannot stand here: there is no division: compare with a sum, as `a + a >= b`"),
        ("row a: 4\nshow c = a ^% 2 == 1", "`%` cannot stand here: there is no division: compare with a sum, as `a + a >= b`"),
        ("row a: 4\nshow c = a in (1^..5)", "`.` cannot stand here: a number is whole, and a range is written `in (1 to 5)`"),
        ("row a: 4\nshow c = a in 1 ^.. 5", "`.` cannot stand here: a number is whole, and a range is written `in (1 to 5)`"),
        ("row a: 4\nshow c = a >= 1^.5", "`.` cannot stand here: a number is whole, and a range is written `in (1 to 5)`"),
        ("row ^\"a\": 4", "`\"` cannot stand here: names and numbers stand without quotes"),
        ("row a: 4 show c = a in ^[1, 2]", "`[` cannot stand here: brackets are `(` and `)`"),
        ("row a: 4 ^\0show a", &format!("{unseen}0000, take it out")),
        ("row a: 4 ^\rshow a", &format!("{unseen}000D, {end}")),
        ("row a: 4 # a comment^\rshow a", &format!("{unseen}000D, {end}")),
        ("row a: 4 # ^\u{202e}a wohs\nshow a", &format!("{unseen}202E, take it out")),
        ("row a: 4 #\n# ^\u{200b}\nshow a", &format!("{unseen}200B, take it out")),
        ("^\u{feff}row a: 4 show a", &format!("{unseen}FEFF, a byte order mark: save the text as UTF-8 without it")),
        ("row a:^\u{a0}4 show a", "a space of another kind, U+00A0: write a plain one"),
    ]);
    assert_fault(
        b"row a: 4\n# ^\xff\nshow a",
        "a byte that is no UTF-8: save the text as UTF-8",
    );
    // A column is a character, not a byte.
    assert_fault(
        "row a: 4 # größe\nshow # ö\n^b".as_bytes(),
        "`b` stands for nothing up to here: `show b = ..` says what it is",
    );
    assert_fault(
        b"row a: 4 # \xc3\xbc^\xff",
        "a byte that is no UTF-8: save the text as UTF-8",
    );
}

#[test]
fn parts() {
    assert_faults(&[
        (
            "^on_hand: 16",
            "`row`, `let` or `show` is expected, not `on_hand`: fields stand behind `row`, as `row on_hand: 16`",
        ),
        (
            "row a: 4 ^b: 4 show a",
            "`row`, `let` or `show` is expected, not `b`: a comma stands between two fields, as `a: 16, b: 16`",
        ),
        (
            "row a: 4 show a ^5",
            "`row`, `let` or `show` is expected, not `5`",
        ),
        ("row ^16: a", "the name of a field is expected, not `16`"),
        (
            "row a: 4^, show a",
            "a comma stands between two, and none behind the last",
        ),
        (
            "row a: 4 show a^,",
            "a comma stands between two, and none behind the last",
        ),
        (
            "row a: 4 show c = a in (1, 2^,)",
            "a comma stands between two, and none behind the last",
        ),
        (
            "row ^in: 4 show in",
            "the name of a field is expected, not `in`: `in` is no name, but `in_1` is one",
        ),
        (
            "row ^show: 4 show show",
            "the name of a field is expected, not `show`: `show` is no name, but `show_1` is one",
        ),
        (
            "row best ^before: 16 show best",
            "`:` is expected, not `before`: a name is one word, as `best_before`",
        ),
        (
            "row a ^16 show a",
            "`:` is expected, not `16`: a field is written with its bits, as `a: 16`",
        ),
        (
            "row a: ^b show a",
            "the number of bits of the field is expected, not `b`: a field is written with its bits, as `a: 16`",
        ),
        (
            "row a:",
            "the number of bits of the field is expected, not the end of the text: a field is written with its bits, as `a: 16`",
        ),
        ("row a: 4 let ^= 5", "a name is expected, not `=`"),
        (
            "row a: 4 let b ^>= 5",
            "`=` is expected, not `>=`: a part gets a name by `let b = ..`",
        ),
        (
            "row a: 4 let b ^:= 5",
            "`=` is expected, not `:`: a part gets a name by `let b = ..`",
        ),
        (
            "row a: 4 show ^3",
            "the name of what is shown is expected, not `3`",
        ),
        (
            "row a: 4 show ^(a)",
            "the name of what is shown is expected, not `(`: what is computed is shown under a name of its own: `show name = ..`",
        ),
        (
            "row a: 4 show",
            "the name of what is shown is expected, not the end of the text",
        ),
    ]);
}

/// What newcomers write, each with the form that is meant.
#[test]
fn other_forms() {
    let named = "what is computed is shown under a name of its own: `show name = a";
    for word in [
        "+", "in", "and", "or", "not", "==", "!=", ">=", "<=", ">", "<",
    ] {
        let marked = format!("row a: 4\nshow a ^{word} 1");
        let expected = format!("`{word}` cannot stand here: {named} {word} ..`");
        assert_fault(marked.as_bytes(), &expected);
    }
    assert_faults(&[
        (
            "row a: 4, b: 4\nshow b,\n  a ^+ 1",
            "`+` cannot stand here: what is computed is shown under a name of its own: `show name = a + ..`",
        ),
        (
            "row a: 4\nshow late^: a >= 3",
            "`:` cannot stand here: what `late` stands for comes behind `=`: `show late = ..`",
        ),
        (
            "row a: 4\nshow c = a >= 3 ^AND a <= 5",
            "`row`, `let` or `show` is expected, not `AND`: the word is `and`, in small letters",
        ),
        (
            "row a: 4\nshow c = a ^between 1 and 5",
            "`row`, `let` or `show` is expected, not `between`: a range is written `in (1 to 5)`",
        ),
        (
            "row a: 4\nshow c = a <^> 5",
            "two numbers that are not equal are `!=`",
        ),
        (
            "row a: 4, b ^= 5",
            "`:` is expected, not `=`: a field is written with its bits, as `b: 16`",
        ),
        (
            "row best^-before: 16",
            "`-` cannot stand here: no number is negative: `a - b >= c` is written `a >= b + c`, and a name has `_`",
        ),
        (
            "^Row a: 4",
            "`row`, `let` or `show` is expected, not `Row`: the word is `row`, in small letters",
        ),
    ]);
}

/// Signs that are on other keyboards or in other languages.
#[test]
fn other_signs() {
    let row = "row a: 32, b: 32\nshow c = ";
    let minus = "no number is negative: `a - b >= c` is written `a >= b + c`, and a name has `_`";
    let range = "a range is written `in (1 to 5)`";
    let known = [
        ("a ^≥ b", "≥", "write `>=`"),
        ("a ^≤ b", "≤", "write `<=`"),
        ("a ^≠ b", "≠", "write `!=`"),
        ("a == 1 ^∧ b == 1", "∧", "write `and`"),
        ("a == 1 ^∨ b == 1", "∨", "write `or`"),
        ("^¬ a == 1", "¬", "write `not`"),
        ("a in (1^-5)", "-", range),
        ("a in 1^-5", "-", range),
        ("a in (3, 1 ^- 5)", "-", range),
        ("a in (3, 7 to 9, 1^–5)", "–", range),
        ("a in (3) and b >= 5^-3", "-", minus),
        ("a in (^-5)", "-", minus),
        ("a ^− b >= 3", "−", minus),
        ("a >= 3 ^// three", "/", "a comment begins with `#`"),
        ("a >= 3 ^-- three", "-", "a comment begins with `#`"),
        ("a >= 3 ^/* three */", "/", "a comment begins with `#`"),
        ("a == ^“b”", "“", "names and numbers stand without quotes"),
        (
            "a >= 3 ^? 1 : 0",
            "?",
            "there is no choice between two values: show the condition itself, as `show ok = a > 3`",
        ),
    ];
    for (value, sign, advice) in known {
        let expected = format!("`{sign}` cannot stand here: {advice}");
        assert_fault(format!("{row}{value}").as_bytes(), &expected);
    }
}

/// Dates, and digits in groups.
#[test]
fn other_numbers() {
    let row = "row a: 32, b: 32\nshow c = ";
    let known = [
        (
            "a >= ^2026-12-01",
            "`2026-12-01` is no number: a date is one number of year, month and day, `20261201`",
        ),
        (
            "a >= ^01.12.2026",
            "`01.12.2026` is no number: a date is one number of year, month and day, `20261201`",
        ),
        (
            "a in (7, ^12/01/2026)",
            "`12/01/2026` is no number: a date is one number of year, month and day, as `20261201`",
        ),
        (
            "a >= ^1,000",
            "`1,000` is no number: its digits stand together, `1000`",
        ),
        (
            "a >= ^1,200,500 and b == 3",
            "`1,200,500` is no number: its digits stand together, `1200500`",
        ),
        (
            "a in (7, ^1,000)",
            "`1,000` is no number: its digits stand together, `1000`",
        ),
        (
            "a >= ^1_000",
            "`1_000` is no number: its digits stand together, `1000`",
        ),
        (
            "a >= ^1'000",
            "`1'000` is no number: its digits stand together, `1000`",
        ),
    ];
    for (value, expected) in known {
        assert_fault(format!("{row}{value}").as_bytes(), expected);
    }
    // Two numbers of a list.
    assert!(build(b"row a: 16\nshow c = a in (1,200)").is_ok());
    assert!(build(b"row a: 16,b: 16\r\nshow c = a >= 1,b\r\n").is_ok());
}

/// Words of other languages, and those of this one in capitals.
#[test]
fn other_words() {
    let choice =
        "there is no choice between two values: show the condition itself, as `show ok = a > 3`";
    let part = "`row`, `let` or `show` is expected, not";
    let known = [
        (
            "show c = ^if a > 3 then 1 else 0",
            format!("`if` cannot stand here: {choice}"),
        ),
        ("^if a > 3 show a", format!("{part} `if`: {choice}")),
        ("show c = a > 3 ^when a < 9", format!("{part} `when`: {choice}")),
        (
            "show c = ^NOT a > 3",
            "`NOT` cannot stand here: the word is `not`, in small letters".into(),
        ),
        (
            "show c = a > 3 ^Or a < 2",
            format!("{part} `Or`: the word is `or`, in small letters"),
        ),
        (
            "show c = a ^is 3",
            format!("{part} `is`: two numbers are compared by `==`"),
        ),
        (
            "^hide a",
            format!("{part} `hide`: what is not shown stays hidden"),
        ),
        (
            "^assert a > 3",
            format!("{part} `assert`: what is asked is shown under a name, as `show ok = a > 3`"),
        ),
        (
            "row b: 16 ^bits show a",
            format!("{part} `bits`: the bits of a field are a number alone, as `a: 16`"),
        ),
        (
            "show c = ^true",
            "`true` stands for nothing up to here: a condition stands alone, as `a > 3` or `not a > 3`"
                .into(),
        ),
    ];
    for (rest, expected) in known {
        assert_fault(format!("row a: 4\n{rest}").as_bytes(), &expected);
    }
    assert_faults(&[
        (
            "row a: 4\n^c = a > 3\nshow c",
            "`row`, `let` or `show` is expected, not `c`: `let c = ..` gives a part a name, `show c = ..` shows it",
        ),
        (
            "row a: 4\nshow c = min^(a, 3) > 2",
            "`row`, `let` or `show` is expected, not `(`: there are no functions",
        ),
    ]);
    // They are names like others.
    assert_fault(
        b"row if: 4\nshow if ^5",
        "`row`, `let` or `show` is expected, not `5`",
    );
    assert!(build(b"row if: 4, bits: 4\nshow is = if >= bits").is_ok());
}

/// A slip in a name.
#[test]
fn other_names() {
    let row = "row on_hand: 16, order: 16\nlet total = on_hand + 5\n";
    let nothing = "stands for nothing up to here";
    let known = [
        ("show c = ^onhand >= order", "onhand", "is `on_hand` meant?"),
        (
            "show c = ^On_Hand >= order",
            "On_Hand",
            "is `on_hand` meant?",
        ),
        ("show c = total >= ^oder", "oder", "is `order` meant?"),
        ("show ^orders", "orders", "is `order` meant?"),
        ("show c = ^totl >= order", "totl", "is `total` meant?"),
        (
            "show c = ^stock >= order",
            "stock",
            "known are on_hand, order, total",
        ),
        (
            "show ^covered",
            "covered",
            "`show covered = ..` says what it is",
        ),
    ];
    for (rest, name, advice) in known {
        let expected = format!("`{name}` {nothing}: {advice}");
        assert_fault(format!("{row}{rest}").as_bytes(), &expected);
    }
    let fields: Vec<String> = (0..14).map(|place| format!("f{place}: 1")).collect();
    let marked = format!("row {}\nshow c = ^stock >= 3", fields.join(", "));
    let names = "f0, f1, f2, f3, f4, f5, f6, f7, f8, f9, f10, f11 and 2 more";
    assert_fault(
        marked.as_bytes(),
        &format!("`stock` {nothing}: known are {names}"),
    );
}

#[test]
fn values() {
    let row = "row a: 4, b: 4\nshow c = ";
    let known = [
        (
            "^",
            "a number, a name or `(` is expected, not the end of the text",
        ),
        (
            "a >= ^show b",
            "a number, a name or `(` is expected, not `show`",
        ),
        ("a + ^>= b", "a number, a name or `(` is expected, not `>=`"),
        (
            "not ^",
            "a number, a name or `(` is expected, not the end of the text",
        ),
        (
            "^and a == 3",
            "a number, a name or `(` is expected, not `and`",
        ),
        ("(a >= b", "`)` is expected, not the end of the text"),
        ("(a >= b ^, b", "`)` is expected, not `,`"),
        ("a ^= b", "to compare two numbers write `==`, `>=` or `<=`"),
        (
            "a + b ^= 3",
            "to compare two numbers write `==`, `>=` or `<=`",
        ),
        (
            "a < b ^< 5",
            "a comparison has two sides: join two of them by `and`",
        ),
        (
            "a == b ^!= 5",
            "a comparison has two sides: join two of them by `and`",
        ),
        (
            "a in ^21",
            "`(` is expected, not `21`: numbers and ranges stand in brackets, as `in (3, 5 to 9)`",
        ),
        (
            "a not in ^1 to 5",
            "`(` is expected, not `1`: numbers and ranges stand in brackets, as `in (3, 5 to 9)`",
        ),
        ("a not ^>= b", "`in` is expected, not `>=`"),
        ("a in (^)", "a number is expected, not `)`"),
        (
            "a in (1, ^b)",
            "a number is expected, not `b`: a list has numbers alone; write `a == b` for a name",
        ),
        (
            "a in (1 to ^b)",
            "a number is expected, not `b`: a list has numbers alone; write `a == b` for a name",
        ),
        (
            "a in (1 ^TO 3)",
            "`)` is expected, not `TO`: the word is `to`, in small letters",
        ),
        ("a ^=> b", "`=>` cannot stand here: write `>=`"),
        ("a ^=< b", "`=<` cannot stand here: write `<=`"),
        (
            "a ==^= b",
            "`=` cannot stand here: two numbers are compared by `==`, `>=` or `<=`",
        ),
        ("a in (1 ^2)", "`)` is expected, not `2`"),
        ("a in (1, ^7 to 6)", "there is no number from 7 to 6"),
    ];
    for (value, expected) in known {
        assert_fault(format!("{row}{value}").as_bytes(), expected);
    }
}

#[test]
fn meanings() {
    let number = "this is a condition, where a number is expected";
    let condition = "this is a number, where a condition is expected: compare it";
    assert_faults(&[
        (
            "row a: 4\nshow ^b",
            "`b` stands for nothing up to here: `show b = ..` says what it is",
        ),
        (
            "row a: 4\nshow c = a >= ^b",
            "`b` stands for nothing up to here: known are a",
        ),
        (
            "row a: 4, d: 4\nshow c = ^b + a >= 3",
            "`b` stands for nothing up to here: known are a, d",
        ),
        ("show c = ^b >= 3", "`b` stands for nothing up to here"),
        (
            "show c = ^a >= 3\nrow a: 4",
            "`a` stands for nothing up to here: line 2 says what it is, and has to come before",
        ),
        (
            "row a: 4\nshow ^total\nlet total = a + 1",
            "`total` stands for nothing up to here: line 3 says what it is, and has to come before",
        ),
        (
            "row a: 4\nlet c = ^c + 1 show c",
            "`c` stands for nothing up to here: known are a",
        ),
        (
            "row a: 4,\n  b: 4,\n  ^a: 5 show a",
            "`a` stands for something else, from line 1, column 5: take another name here",
        ),
        (
            "row a: 4\nlet ^a = 3 show a",
            "`a` stands for something else, from line 1, column 5: take another name here",
        ),
        (
            "row a: 4 show b = a + 1, ^b = a + 2",
            "`b` stands for something else, from line 1, column 15: take another name here",
        ),
        (
            "row a: 4\nshow ^a = a",
            "`a` is shown by its name alone: `show a`",
        ),
        ("row a: 4 show a, ^a", "`a` is shown twice"),
        ("row a: 4 show b = a + 1\nshow ^b", "`b` is shown twice"),
        (
            "row a: 4\nlet ^c = a + 1\nshow a",
            "`c` is not used: show it, or take it out",
        ),
        (
            "row a: 4\nlet c = a + 1\nlet ^d = c + 1 let e = c show a",
            "`d` is not used: show it, or take it out",
        ),
        ("row a: 4", "nothing is shown: a statement has a `show`"),
        ("# nothing\n", "nothing is shown: a statement has a `show`"),
        ("", "nothing is shown: a statement has a `show`"),
        (
            "show a = 5, b = 5 >= 3",
            "there is no field: a statement has a `row`",
        ),
        ("row a: 4 show c = a >= 3 and ^a", condition),
        ("row a: 4 show c = ^a or a >= 3", condition),
        ("row a: 4 show c = not ^a", condition),
        ("row a: 4 show c = not ^(a + 1)", condition),
        (
            "row a: 4 let s = a + 1 show c = a >= 3 or a == 2 and ^s",
            condition,
        ),
        ("row a: 4 show c = ^(a >= 3) == 1", number),
        ("row a: 4 show c = 1 == ^(a >= 3)", number),
        ("row a: 4 show c = a + ^(a >= 3) >= 2", number),
        ("row a: 4 show c = ^(a >= 3) in (1)", number),
        ("row a: 4 show c = a >= 3, d = ^c + 1", number),
    ]);
}

/// A field of 0 or 129 bits, a row of 513, 257 shown bits, a sum of 129.
#[test]
fn limits() {
    let field = "a field has 1 to 128 bits";
    let wide = "this sum can have more than 128 bits";
    assert_faults(&[
        ("row a: ^0 show a", field),
        ("row a: 1, b: ^129 show a", field),
        (
            "row a: ^340282366920938463463374607431768211455 show a",
            field,
        ),
        (
            "row a: 128, b: 128, c: 128, d: 128,\n^e: 1 show a",
            "the row has 513 bits with this field, at most 512",
        ),
        (
            "row a: 128, b: 128, c: 100 row d: 128,\n^e: 100 show a",
            "the row has 584 bits with this field, at most 512",
        ),
        (
            "row a: 128, b: 128, c: 1\nshow a, b, ^c",
            "257 bits are shown with this, at most 256",
        ),
        (
            "row a: 128, b: 127, c: 1\nshow a, b, c, ^d = a >= b",
            "257 bits are shown with this, at most 256",
        ),
        ("row a: 128 show b = ^a + 1 >= 3", wide),
        ("row a: 128, b: 1 show c = 3 >= ^b + a", wide),
        (
            "row a: 128 show b = a > ^340282366920938463463374607431768211455 + 1",
            wide,
        ),
        ("row a: 127 let b = a + a + 1 show c = ^(b + 1) == 3", wide),
    ]);
    // What is just allowed.
    for text in [
        "row a: 128, b: 128, c: 128, d: 128 show a",
        "row a: 128, b: 128 show a, b",
        "row a: 127, b: 127, c: 1 show s = a + b + c",
        "row a: 128 show b = a > 340282366920938463463374607431768211455 + 0",
        "row a: 1 show a",
    ] {
        assert!(build(text.as_bytes()).is_ok(), "{text}");
    }
    let built = build(b"row a: 128, b: 128 show a, b").expect("a statement");
    assert_eq!(
        wivulameno::circuit::read(&built.circuit),
        Ok([256, 256, 0, 0])
    );
}

/// Terms of one bit in turn, each `and` a gate: the terms of the gates that are allowed pass,
/// and with one more the whole condition is one gate too long.
#[test]
fn gates() {
    let text = |gates: usize| {
        let terms: Vec<&str> = ["a == 1", "b == 1"]
            .into_iter()
            .cycle()
            .take(gates + 1)
            .collect();
        format!("row a: 1, b: 1\nshow c = {}", terms.join(" and "))
    };
    let built = build(text(100_000).as_bytes()).expect("as many gates as are allowed");
    assert_eq!(
        wivulameno::circuit::read(&built.circuit),
        Ok([2, 1, 100_000, 100_000])
    );
    let mut y = [0];
    let answer = reference::circuit::evaluate(&built.circuit, &[0b11], &mut y);
    assert_eq!((answer, y), (Ok(()), [1]));
    let fault = build(text(100_001).as_bytes()).expect_err("one too many");
    assert_eq!(
        fault.to_string(),
        "line 2, column 10: more than 100000 gates with this"
    );
    // The inversion that an output needs is a gate, too.
    let inverted = text(100_000).replace("c =", "c = not (") + ")";
    let fault = build(inverted.as_bytes()).expect_err("one too many");
    assert_eq!(
        fault.to_string(),
        "line 2, column 6: more than 100000 gates with this"
    );
}

/// As deep as allowed, one deeper, and far deeper: no stack runs over.
#[test]
fn depth() {
    let text = |open: &str, depth: usize, close: &str| {
        let [open, close] = [open, close].map(|part| part.repeat(depth));
        format!("row a: 4\nshow c = {open}a >= 3{close}")
    };
    for (open, close) in [("(", ")"), ("not ", ""), ("not (", ")")] {
        let levels = if open == "not (" { 2 } else { 1 };
        let most = MAX_DEPTH / levels;
        assert!(build(text(open, most, close).as_bytes()).is_ok(), "{open}");
        let told = format!("more than {MAX_DEPTH} brackets and `not` in each other");
        for depth in [most + 1, 500_000] {
            let fault = build(text(open, depth, close).as_bytes()).expect_err("too deep");
            assert_eq!(fault.text, told, "{open}");
            let column = 10 + open.len() * most;
            assert_eq!(fault.place, Place { line: 2, column }, "{open}");
        }
    }
    // Side by side is not in each other.
    let many = vec!["(a >= 3)"; 1_000].join(" and ");
    assert!(build(format!("row a: 4 show c = {many}").as_bytes()).is_ok());
    let many = vec!["not a >= 3"; 1_000].join(" or ");
    assert!(build(format!("row a: 4 show c = {many}").as_bytes()).is_ok());
}

/// Comparisons that have one answer are told with their place.
#[test]
fn notes() {
    let text = "row date: 16, a: 4\nshow late = date >= 20261117 or\n  a < 16 and a in (16, 20),\n  d = a + 3 != 2, e = a == a, f = a >= 3";
    let built = build(text.as_bytes()).expect("a statement");
    let notes: Vec<String> = built.notes.iter().map(Fault::to_string).collect();
    assert_eq!(
        notes,
        [
            "line 2, column 13: this is no for every row",
            "line 3, column 3: this is yes for every row",
            "line 3, column 14: this is no for every row",
            "line 4, column 7: this is yes for every row",
            "line 4, column 23: this is yes for every row",
        ]
    );
}
