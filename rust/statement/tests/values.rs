//! Named values packed into bits, and taken out again.

use statement::{build, Built, Given, Place};
use tests::random::Random;

fn built() -> Built {
    let text = "row stock: 16, flag: 1, date: 32, key: 128\n\
                show flag, fine = stock >= 3, total = stock + date, key";
    build(text.as_bytes()).expect("a statement")
}

#[test]
fn by_hand() {
    let built = built();
    assert_eq!((built.row.bits(), built.y.bits()), (177, 1 + 1 + 33 + 128));
    let row = built
        .row
        .pack(b"stock=1000 flag=1 date=20000 key=7")
        .expect("values");
    // 1000, then 1 + 2 * 20000 = 40001 in 33 bits, then 7 behind 49 bits: 14 behind 48.
    let mut expected = [0; 23];
    expected[..2].copy_from_slice(&[0xe8, 3]);
    expected[2..4].copy_from_slice(&40_001_u16.to_le_bytes());
    expected[6] = 14;
    assert_eq!(row, expected);
    let shown = built
        .y
        .pack(b"flag=1, fine=yes, total=21000, key=7")
        .expect("values");
    let mut y = vec![0; 21];
    let answer = reference::circuit::evaluate(&built.circuit, &row, &mut y);
    assert_eq!((answer, &y), (Ok(()), &shown));
    let values = [
        ("flag", Given::Number(1)),
        ("fine", Given::Condition(true)),
        ("total", Given::Number(21_000)),
        ("key", Given::Number(7)),
    ];
    assert_eq!(built.y.unpack(&y), values);
    let words: Vec<String> = values.iter().map(|(_, value)| value.to_string()).collect();
    assert_eq!(words, ["1", "yes", "21000", "7"]);
    assert_eq!(Given::Condition(false).to_string(), "no");
}

#[test]
fn any_order_and_white_space() {
    let row = built().row;
    let expected = row.pack(b"stock=1 flag=0 date=2 key=3").expect("values");
    for text in [
        "key=3,date=2,flag=0,stock=1",
        "stock = 1\nflag = 0\r\ndate\n=\n2\tkey=3\n",
        "# a row\nstock=1 # of today\nflag=0, date=2,\nkey=3,",
    ] {
        assert_eq!(row.pack(text.as_bytes()).expect(text), expected);
    }
    let y = built().y;
    let expected = y.pack(b"flag=0 fine=no total=0 key=0").expect("values");
    assert_eq!(expected, [0; 21]);
    assert_eq!(
        y.pack(b"flag=0 fine=0 total=0 key=0").expect("values"),
        expected
    );
    assert_eq!(
        y.pack(b"flag=0 fine=1 total=0 key=0").expect("values")[0],
        2
    );
}

#[test]
fn there_and_back() {
    let mut random = Random::new(32);
    let row = built().row;
    for _ in 0..1_000 {
        let wide = u128::from(random.word()) << 64 | u128::from(random.word());
        let numbers = [
            wide & 0xffff,
            wide >> 17 & 1,
            wide >> 20 & 0xffff_ffff,
            wide,
        ];
        let [stock, flag, date, key] = numbers;
        let text = format!("stock={stock} flag={flag} date={date} key={key}");
        let bytes = row.pack(text.as_bytes()).expect("values");
        let values = row.unpack(&bytes);
        let found: Vec<Given> = values.into_iter().map(|(_, value)| value).collect();
        assert_eq!(found, numbers.map(Given::Number));
    }
}

#[test]
fn faults() {
    let built = built();
    let row = |text: &str| built.row.pack(text.as_bytes()).expect_err(text);
    let y = |text: &str| built.y.pack(text.as_bytes()).expect_err(text);
    let known = [
        (row("stock=1\nflag=0 date=2"), 2, 14, "`key` has no value"),
        (row(""), 1, 1, "`stock` has no value"),
        (row("stock=1 flag=0 date=2 key=3\n  stock=1"), 2, 3, "`stock` has a value already"),
        (row("stock=1 day=0"), 1, 9, "`day` is none of stock, flag, date, key"),
        (row("stock=65536"), 1, 7, "`stock` is at most 65535: it has 16 bits"),
        (row("flag=2"), 1, 6, "`flag` is at most 1: it has 1 bit"),
        (row("flag=yes"), 1, 6, "`flag` is a number, not `yes`"),
        (row("stock 5"), 1, 7, "`=` is expected, not `5`: a value stands behind `=`, as `order=250`"),
        (row("stock: 5"), 1, 6, "`=` is expected, not `:`: a value stands behind `=`, as `order=250`"),
        (row("stock,flag\n5,1"), 1, 6, "`=` is expected, not `,`: a value stands behind `=`, as `order=250`"),
        (row("stock==5"), 1, 6, "`=` is expected, not `==`: a value stands behind `=`, as `order=250`"),
        (row("stock=1 =5"), 1, 9, "a name is expected, not `=`: a value stands behind `=`, as `order=250`"),
        (row("stok=5"), 1, 1, "`stok` is none of stock, flag, date, key: is `stock` meant?"),
        (row("Stock=5"), 1, 1, "`Stock` is none of stock, flag, date, key: is `stock` meant?"),
        (row("stock=1,000 flag=1"), 1, 7, "`1,000` is no number: its digits stand together, `1000`"),
        (row("stock=1,200 flag=1"), 1, 7, "`1,200` is no number: its digits stand together, `1200`"),
        (row("stock=1_000"), 1, 7, "`1_000` is no number: its digits stand together, `1000`"),
        (row("date=2026-12-01"), 1, 6, "`2026-12-01` is no number: a date is one number of year, month and day, `20261201`"),
        (row("stock=5.5"), 1, 8, "`.` cannot stand here: a value is a whole number"),
        (row("stock=5; flag=1"), 1, 8, "`;` cannot stand here: white space or a comma stands between two values"),
        (row("stock=5*2"), 1, 8, "`*` cannot stand here: a value is one number"),
        (row("stock=1 // of today"), 1, 9, "`/` cannot stand here: a comment begins with `#`"),
        (row("{stock=5}"), 1, 1, "`{` cannot stand here: values stand without brackets, as `on_hand=1000 order=250`"),
        (row("\"stock\": 5"), 1, 1, "`\"` cannot stand here: names and numbers stand without quotes"),
        (row("\u{feff}stock=5"), 1, 1, "a character that is not seen, U+FEFF, a byte order mark: save the text as UTF-8 without it"),
        (row("stock="), 1, 7, "`stock` is a number, not the end of the text"),
        (row("stock"), 1, 6, "`=` is expected, not the end of the text: a value stands behind `=`, as `order=250`"),
        (row("show=5"), 1, 1, "a name is expected, not `show`: a value stands behind `=`, as `order=250`"),
        (row("stock=-5"), 1, 7, "`-` cannot stand here: no value is negative, and a name has `_`"),
        (row("key=340282366920938463463374607431768211456"), 1, 5, "`340282366920938463463374607431768211456` has more than 128 bits"),
        (y("flag=1\nfine=2"), 2, 6, "`fine` is yes or no, not `2`"),
        (y("fine=true"), 1, 6, "`fine` is yes or no, not `true`"),
        (y("total=8589934592"), 1, 7, "`total` is at most 8589934591: it has 33 bits"),
    ];
    for (fault, line, column, text) in known {
        assert_eq!(
            (fault.place, fault.text.as_str()),
            (Place { line, column }, text)
        );
    }
}

/// A sum that does not fit the bits of its terms has more bits, shown and compared.
#[test]
fn sums_are_exact() {
    let text = "row a: 16, b: 16, c: 16\nshow sum = a + b, covered = a + b >= c, more = c + 1 > a";
    let built = build(text.as_bytes()).expect("a statement");
    assert_eq!(built.y.bits(), 17 + 1 + 1);
    let known = [
        ("a=65535 b=1 c=65535", 65_536, true, true),
        ("a=65535 b=65535 c=65535", 131_070, true, true),
        ("a=65534 b=0 c=65535", 65_534, false, true),
        ("a=0 b=0 c=65535", 0, false, true),
        ("a=65535 b=0 c=65534", 65_535, true, false),
    ];
    for (values, sum, covered, more) in known {
        let row = built.row.pack(values.as_bytes()).expect("values");
        let mut y = [0; 3];
        let answer = reference::circuit::evaluate(&built.circuit, &row, &mut y);
        assert_eq!(answer, Ok(()));
        let expected = [
            ("sum", Given::Number(sum)),
            ("covered", Given::Condition(covered)),
            ("more", Given::Condition(more)),
        ];
        assert_eq!(built.y.unpack(&y), expected, "{values}");
    }
}
