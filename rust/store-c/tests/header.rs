//! The header has the numbers, the status and the functions of this crate.

use std::mem::{offset_of, size_of};
use wivulameno_store::{Answer, CStatus, PAGES};

const HEADER: &str = include_str!("../../../include/wivulameno_store.h");
const SOURCE: &str = include_str!("../src/lib.rs");

/// The names and numbers of an enumeration, in their order.
fn numbers(name: &str) -> Vec<(String, u32)> {
    let body = HEADER.split(&format!("enum {name} {{")).nth(1);
    let body = body.and_then(|body| body.split("};").next());
    let lines = body.expect("an enum").lines();
    let pairs = lines.filter_map(|line| line.trim().split_once(" = "));
    let number = |text: &str| text.trim_end_matches(',').parse().expect("a number");
    pairs
        .map(|(name, text)| (name.to_string(), number(text)))
        .collect()
}

/// `NoPage` is `NO_PAGE`.
fn in_capitals(name: &str) -> String {
    let mut capitals = String::new();
    for letter in name.chars() {
        if letter.is_ascii_uppercase() && !capitals.is_empty() {
            capitals.push('_');
        }
        capitals.push(letter.to_ascii_uppercase());
    }
    capitals
}

#[test]
fn answers() {
    let name = |answer: Answer| format!("WV_STORE_{}", in_capitals(&format!("{answer:?}")));
    let expected = Answer::ALL.map(|answer| (name(answer), answer.number()));
    assert_eq!(numbers("wv_store_answer"), expected);
}

/// The comment above each number is what `wv_store_text` says, or begins with it.
#[test]
fn sentences() {
    let words = |text: &str| text.split_whitespace().collect::<Vec<_>>().join(" ");
    let header = words(HEADER);
    for answer in Answer::ALL {
        let sentence = answer.sentence();
        assert!(header.contains(&format!("/* {sentence}")), "{sentence}");
    }
}

#[test]
fn pages() {
    let names = PAGES.map(|name| format!("WV_STORE_PAGE_{name}"));
    let expected: Vec<_> = names.into_iter().zip(0..).collect();
    assert_eq!(numbers("wv_store_page"), expected);
}

/// The fields stand in this order, each where C puts it.
#[test]
fn the_status() {
    let body = HEADER.split("struct wv_store_status {").nth(1);
    let body = body.and_then(|body| body.split("};").next()).expect("it");
    let fields = body.lines().filter_map(|line| line.trim().split_once(' '));
    let fields = fields.filter(|(kind, _)| kind.starts_with("uint"));
    let fields: Vec<_> = fields
        .map(|(kind, rest)| (kind, rest.split(';').next().expect("a name")))
        .collect();
    let places = [
        ("slots", offset_of!(CStatus, slots)),
        ("ready", offset_of!(CStatus, ready)),
        ("draws", offset_of!(CStatus, draws)),
        ("page", offset_of!(CStatus, page)),
        ("count", offset_of!(CStatus, count)),
        ("missing", offset_of!(CStatus, missing)),
        ("unfinished", offset_of!(CStatus, unfinished)),
        ("answer", offset_of!(CStatus, answer)),
    ];
    let mut end = 0;
    for ((kind, field), (name, place)) in fields.iter().zip(places) {
        assert_eq!((*field, end), (name, place));
        end += match *kind {
            "uint32_t" => 4,
            "uint64_t" => 8,
            other => panic!("{other}"),
        };
    }
    assert_eq!((fields.len(), end), (places.len(), size_of::<CStatus>()));
}

/// Every function of the crate is declared, and no other.
#[test]
fn functions() {
    let named = |text: &str, before: &str| {
        let mut names: Vec<String> = vec![];
        for part in text.split(before).skip(1) {
            let name = part.split('(').next().expect("a name");
            names.push(name.to_string());
        }
        names.sort();
        names
    };
    let made = named(SOURCE, "extern \"C\" fn ");
    let code = HEADER.split("*/").map(|part| part.split("/*").next());
    let code: String = code.map(|part| part.expect("a part")).collect();
    let mut declared = vec![];
    for line in code.lines().filter(|line| line.contains('(')) {
        let before = line.split('(').next().expect("a part");
        let name = before.rsplit([' ', '*']).next().expect("a name");
        declared.push(name.to_string());
    }
    declared.sort();
    assert_eq!(declared, made);
    assert_eq!(made.len(), 11);
}
