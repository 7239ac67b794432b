//! Row files: by the table of `docs/formats.md`, and those that are not taken.

use statement::{
    bits_of_row_file, build, is_row_file, row_file, FieldDifference, Layout, RowFault,
};
use tests::tables;

const FORMATS: &str = include_str!("../../../docs/formats.md");

/// The fields of a row.
fn fields(row: &str) -> Layout {
    let shown = row.split(':').next().expect("a name");
    let text = format!("row {row} show {shown}");
    build(text.as_bytes()).expect("a statement").row
}

#[test]
fn by_hand() {
    let goods = fields("on_hand: 16, order: 16");
    let bits = goods.pack(b"order=250 on_hand=1000").expect("values");
    let file = row_file(&goods, &bits);
    assert_eq!(
        file,
        b"wivulameno row 1 on_hand: 16, order: 16\n\xe8\x03\xfa\x00"
    );
    assert_eq!(bits_of_row_file(&file, &goods), Ok(&bits[..]));
    // However the fields are written, and whatever is shown of them.
    let text = "show five = 5 >= 3\nrow on_hand :16 # in stock\nrow order:16";
    let other = build(text.as_bytes()).expect("a statement").row;
    assert_eq!(bits_of_row_file(&file, &other), Ok(&bits[..]));
}

/// The table and the picture, on a file of 12 bits.
#[test]
fn by_the_page() {
    let text = tables::section(FORMATS, "Row file");
    let found = tables::tables(text);
    let [table] = &found[..] else {
        panic!("one table");
    };
    let layout = tables::Layout::of(table);
    let row = fields("a: 3, b_2: 9");
    // 5 + 8 * 257 = 2061 = 0x080d.
    let file = row_file(&row, &row.pack(b"a=5 b_2=257").expect("values"));
    let names = [("D", 12), ("I", 12)];
    let get = |field: &str| layout.get(&file, field, &names);
    assert_eq!(get("version"), b"wivulameno row 1 ");
    assert_eq!(get("fields"), b"a: 3, b_2: 9");
    assert_eq!(get("line end"), b"\n");
    assert_eq!(get("witness"), [0x0d, 8]);
    assert_eq!(layout.range("end", &names), file.len()..file.len());
    assert_eq!(layout.fields().count(), 5);
    let ruler = text
        .split("```text\n")
        .nth(1)
        .and_then(|text| text.lines().next());
    let places = ruler.expect("a picture").split("  ").map(str::trim);
    let places: Vec<usize> = places
        .filter(|place| !place.is_empty())
        .map(|place| tables::value(place, &names))
        .collect();
    assert_eq!(places, [0, 17, 29, 30, 32]);
}

/// The first field that differs.
fn difference(number: usize, packed: Option<&str>, asked: Option<&str>) -> RowFault {
    let [packed, asked] = [packed, asked].map(|field| field.map(String::from));
    RowFault::Fields(FieldDifference {
        number,
        packed,
        asked,
    })
}

/// Rows of the same length for other fields.
#[test]
fn other_fields() {
    let goods = fields("on_hand: 16, order: 16");
    let bits = goods.pack(b"order=250 on_hand=1000").expect("values");
    let file = row_file(&goods, &bits);
    let known = [
        // In another order, under another name, of other widths.
        (
            "order: 16, on_hand: 16",
            1,
            Some("on_hand: 16"),
            Some("order: 16"),
        ),
        (
            "on_hand: 16, price: 16",
            2,
            Some("order: 16"),
            Some("price: 16"),
        ),
        (
            "on_hand: 16, Order: 16",
            2,
            Some("order: 16"),
            Some("Order: 16"),
        ),
        (
            "on_hand: 15, order: 17",
            1,
            Some("on_hand: 16"),
            Some("on_hand: 15"),
        ),
        // One more, one less.
        ("on_hand: 16, order: 16, b: 1", 3, None, Some("b: 1")),
        ("on_hand: 16", 2, Some("order: 16"), None),
    ];
    for (asked, number, packed, wanted) in known {
        let expected = difference(number, packed, wanted);
        let found = bits_of_row_file(&file, &fields(asked));
        assert_eq!(found, Err(expected), "{asked}");
    }
    let told = difference(2, Some("order: 16"), None).to_string();
    assert_eq!(
        told,
        "its field 2 is `order: 16`, and the statement's is none"
    );
}

/// Every single byte of the first line changed, and every cut.
#[test]
fn damage() {
    let goods = fields("on_hand: 16, order: 16");
    let bits = [0xe8, 3, 0xfa, 0];
    let file = row_file(&goods, &bits);
    let head = file.len() - bits.len();
    for place in 0..head {
        for flip in [1, 2, 0x20, 0x80] {
            let mut changed = file.clone();
            changed[place] ^= flip;
            let found = bits_of_row_file(&changed, &goods);
            assert!(found.is_err(), "{place} {flip}: {found:?}");
            assert_eq!(is_row_file(&changed), place >= 15, "{place} {flip}");
        }
    }
    for len in 0..file.len() {
        let found = bits_of_row_file(&file[..len], &goods);
        let expected = match len {
            0..15 => RowFault::Damaged,
            15..17 => RowFault::Version,
            17..40 => RowFault::Damaged,
            _ => RowFault::Length {
                found: len - 40,
                asked: 4,
            },
        };
        assert_eq!(found, Err(expected), "{len}");
    }
    assert_eq!(head, 40);
    let long = [&file[..], &[0]].concat();
    let fault = bits_of_row_file(&long, &goods).expect_err("one byte too many");
    assert_eq!(
        fault.to_string(),
        "it has 5 of 4 bytes behind its first line: it was cut off or changed"
    );
}

/// First lines that name the fields in another form, or name none.
#[test]
fn other_first_lines() {
    let goods = fields("a: 4, b: 4");
    for line in [
        "1 a:4, b: 4",
        "1 a: 4,b: 4",
        "1 a: 4, b: 4 ",
        "1  a: 4, b: 4",
        "1 a: 4, b: 4,",
        "1 a: 4, b: 4 # c",
        "1 a: 4, b: 4\r",
        "1 a: 4 row b: 4",
        "1 a: 4, b: 4 show a",
        "1 a: 04, b: 4",
        "1 a: 4, b: 129",
        "1 ",
        "1 \u{fffd}",
    ] {
        let file = [format!("wivulameno row {line}\n").as_bytes(), &[0x21]].concat();
        let found = bits_of_row_file(&file, &goods);
        assert_eq!(found, Err(RowFault::Damaged), "{line}");
    }
    for line in ["2 a: 4, b: 4", "a: 4, b: 4", "11 a: 4, b: 4", ""] {
        let file = [format!("wivulameno row {line}\n").as_bytes(), &[0x21]].concat();
        let found = bits_of_row_file(&file, &goods);
        assert_eq!(found, Err(RowFault::Version), "{line}");
    }
}
