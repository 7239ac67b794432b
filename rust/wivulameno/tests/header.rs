//! The C header has the same refusals, limits and version as this crate, and the functions of
//! the proved library.

use std::collections::{BTreeMap, HashMap};
use wivulameno::limits::*;
use wivulameno::Refusal;

const HEADER: &str = include_str!("../../../include/wivulameno.h");
const LIBRARY: &str = include_str!("../../../crates/wivulameno/src/lib.rt");

/// The `#define`s with a value, by name; comments are left out.
fn defines() -> HashMap<&'static str, &'static str> {
    let lines = HEADER.lines();
    let values = lines.filter_map(|line| {
        let (name, rest) = line.strip_prefix("#define ")?.split_once(' ')?;
        let value = rest.split("/*").next()?;
        Some((name, value.trim()))
    });
    values.collect()
}

fn number(text: &str) -> u64 {
    let digits = text.trim_end_matches('u');
    digits.parse().unwrap_or_else(|_| panic!("{text}"))
}

/// The enumeration's names and numbers, in their order.
fn answers() -> Vec<(&'static str, u64)> {
    let body = HEADER.split("enum wv_answer {").nth(1).expect("an enum");
    let body = body.split("};").next().expect("its end");
    let lines = body.lines().filter_map(|line| line.split_once(" = "));
    lines
        .map(|(name, value)| (name.trim(), number(value.trim_end_matches(','))))
        .collect()
}

/// `ProofHeader` is `WV_REFUSED_PROOF_HEADER`.
fn name_in_c(refusal: Refusal) -> String {
    let mut name = "WV_REFUSED".to_string();
    for letter in format!("{refusal:?}").chars() {
        if letter.is_ascii_uppercase() {
            name.push('_');
        }
        name.push(letter.to_ascii_uppercase());
    }
    name
}

#[test]
fn refusals() {
    let refusals = Refusal::ALL.map(|refusal| (name_in_c(refusal), refusal.number().into()));
    let expected = std::iter::once(("WV_ACCEPTED".to_string(), 0)).chain(refusals);
    let found = answers().into_iter();
    let found = found.map(|(name, number)| (name.to_string(), number));
    assert_eq!(found.collect::<Vec<_>>(), expected.collect::<Vec<_>>());
}

/// A limit of the crate, under its name.
macro_rules! limits {
    ($($name:ident)*) => {
        [$((concat!("WV_", stringify!($name)), $name as u64)),*]
    };
}

#[test]
fn all_limits() {
    let limits = limits!(
        MAX_INPUTS MAX_OUTPUTS MAX_GATES MAX_CIRCUIT MAX_SMALL_INPUTS MAX_SMALL_GATES
        MAX_SMALL_CIRCUIT MAX_LISTED MAX_WORK MAX_STACK MAX_PARTIES MAX_INSTANCES
        MAX_INSTANCE_NUMBER MAX_MESSAGE PROOF_HEADER_LEN MAX_PROOF MAX_CALLERS MAX_QUOTA
        SHARED_STATE SHARED_WORK ROOT_LEN SALT_LEN DIGEST_LEN MAX_SLOTS MAX_DRAWS
    );
    let mut defines = defines();
    for (name, value) in limits {
        let found = defines.remove(name).map(number);
        assert_eq!(found, Some(value), "{name}");
    }
    let others = defines.into_keys();
    let others: Vec<_> = others
        .filter(|name| !name.starts_with("WV_VERSION"))
        .collect();
    assert!(others.is_empty(), "not compared: {others:?}");
}

#[test]
fn the_version() {
    let defines = defines();
    let version = env!("CARGO_PKG_VERSION");
    assert_eq!(defines["WV_VERSION"], format!("\"{version}\""));
    let parts = ["MAJOR", "MINOR", "PATCH"].map(|part| defines[&*format!("WV_VERSION_{part}")]);
    assert_eq!(parts.join("."), version);
    let linked = wivulameno::library_version().map(|part| part.to_string());
    assert_eq!(linked.join("."), version);
}

/// The parameters of each function, one to a string: its type and its name.
type Functions = BTreeMap<String, Vec<String>>;

/// The functions that stand behind `start`, with their parameters as they are written.
fn functions<'a>(text: &'a str, start: &str) -> Vec<(&'a str, Vec<&'a str>)> {
    let parts = text.split(start).skip(1);
    let found = parts.map(|part| {
        let (name, rest) = part.split_once('(').expect("a bracket");
        let (list, _) = rest.split_once(')').expect("its end");
        let list = list.split(',').map(str::trim);
        (name, list.filter(|one| !one.is_empty()).collect())
    });
    found.collect()
}

/// The functions that the header declares; an array is a pointer with so many places.
fn declared() -> Functions {
    let code = HEADER.split("*/").map(|part| part.split("/*").next());
    let code: String = code.map(|part| part.expect("a part")).collect();
    let defines = defines();
    let written = |one: &&str| {
        let one = one.split_whitespace().collect::<Vec<_>>().join(" ");
        match one.split_once('[') {
            None => one,
            Some((front, places)) => {
                let places = places.trim_end_matches(']');
                let places = defines.get(places).copied().unwrap_or(places);
                let (kind, name) = front.rsplit_once(' ').expect("a name");
                format!("{kind}[{places}] {name}")
            }
        }
    };
    let of = |(name, list): (&str, Vec<&str>)| {
        let list = list.iter().filter(|one| **one != "void");
        (name.to_string(), list.map(written).collect())
    };
    functions(&code, "\nuint32_t ")
        .into_iter()
        .map(of)
        .collect()
}

/// How C writes a parameter of the library: a slice is a pointer and its length, an array of
/// one is a pointer.
fn in_c(function: &str, parameter: &str) -> Vec<String> {
    let (name, kind) = parameter.split_once(": ").expect("a type");
    let name = match (function, name) {
        (_, "masked") => "masked_inputs",
        (_, "blanked") => "shown_tapes",
        ("wv_masters", "out") => "masters",
        ("wv_cover", "out") => "nodes",
        _ => name,
    };
    let len = match name {
        "data" => "len".to_string(),
        _ => format!("{name}_len"),
    };
    let (written, kind) = match kind.strip_prefix("&mut ") {
        Some(kind) => ("", kind),
        None => ("const ", kind.trim_start_matches('&')),
    };
    let word = |kind: &str| format!("uint{}_t", &kind[1..]);
    let inner = kind.trim_start_matches('[').trim_end_matches(']');
    match inner.split_once("; ") {
        Some((kind, "1")) => vec![format!("{written}{} *{name}", word(kind))],
        Some((kind, places)) => vec![format!("{written}{}[{places}] {name}", word(kind))],
        None if inner == kind => vec![format!("{} {name}", word(kind))],
        None => vec![
            format!("{written}{} *{name}", word(inner)),
            format!("size_t {len}"),
        ],
    }
}

/// Every function of the library is declared, with its parameters in their order, and no
/// other.
#[test]
fn all_functions() {
    let of = |(name, list): (&str, Vec<&str>)| {
        let list = list.iter().flat_map(|one| in_c(name, one));
        (name.to_string(), list.collect())
    };
    let library = functions(LIBRARY, "pub extern \"C\" fn ");
    let library: Functions = library.into_iter().map(of).collect();
    assert_eq!(declared(), library);
    assert_eq!(library.len(), 29);
}
