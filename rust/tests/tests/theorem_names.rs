//! The names in docs/THEOREMS.md stand where it says: each path, each name after
//! a path, each function, each test and each edit. A name without a path is a word
//! of the crates or of the C header.

use std::collections::HashSet;
use std::fs;
use std::path::{Path, PathBuf};
use std::sync::OnceLock;

fn root() -> PathBuf {
    Path::new(env!("CARGO_MANIFEST_DIR")).join("../..")
}

/// The text of a file of the repository.
fn text(path: &str) -> Option<String> {
    fs::read_to_string(root().join(path)).ok()
}

/// The file that a path of the map leads to.
fn file_of(token: &str) -> Option<String> {
    let parts: Vec<&str> = token.split('/').collect();
    match parts[..] {
        ["tests", file] => Some(format!("rust/tests/tests/{file}.rs")),
        [name, kind @ ("specs" | "proofs"), ..] => {
            let rest = &token[name.len() + kind.len() + 2..];
            Some(format!("crates/{name}/{kind}/{rest}.antt"))
        }
        [name, "must-fail", edit] => Some(format!("crates/{name}/must-fail/{edit}.edit")),
        _ => None,
    }
}

/// Whether a line of a file of definitions or proofs is the signature of a name: of
/// a definition, a theorem, a record, a data type, a field or a constructor.
fn is_signature(line: &str, name: &str) -> bool {
    let Some((names, _)) = line.split_once(" : ") else {
        return false;
    };
    let marks = ["pub", "unfoldable", "abbrev"];
    // a level of types, in braces, can follow the name
    let words = names.split_once(" {").map_or(names, |(name, _)| name);
    let words = words.split_whitespace();
    let mut words = words.skip_while(|word| marks.contains(word));
    match words.next() {
        // parameters follow the name
        Some("record" | "data") => words.next() == Some(name),
        Some("--" | "let") | None => false,
        Some(_) if names.contains(['=', '(', 'λ', '→']) => false,
        Some(first) => first == name || words.any(|word| word == name),
    }
}

/// Whether a line of Rattle begins the function, type or constant of a name.
fn begins(line: &str, name: &str) -> bool {
    let end = |c: char| !(c.is_alphanumeric() || c == '_');
    let code = line.split("//").next().unwrap_or("");
    let words: Vec<&str> = code.split(end).collect();
    let kinds = ["fn", "struct", "enum", "const"];
    words
        .windows(2)
        .any(|pair| kinds.contains(&pair[0]) && pair[1] == name)
}

/// Whether a file of tests has a test of this name, marked as one.
fn has_test(text: &str, name: &str) -> bool {
    let start = format!("fn {name}(");
    let mut marked = false;
    for line in text.lines() {
        if marked && line.starts_with(&start) {
            return true;
        }
        marked = line == "#[test]" || (marked && line.starts_with("#["));
    }
    false
}

/// Whether a name stands in the file that the path before it leads to.
fn has_name(path: &str, text: &str, name: &str) -> bool {
    if path.ends_with(".rs") {
        has_test(text, name)
    } else {
        text.lines().any(|line| is_signature(line, name))
    }
}

/// Whether the function or type at a path of Rattle stands in its module.
fn function_stands(token: &str) -> bool {
    let parts: Vec<&str> = token.split("::").collect();
    let (name, between) = (parts[parts.len() - 1], &parts[1..parts.len() - 1]);
    // a method has its type before it
    let module = between
        .iter()
        .find(|part| part.starts_with(char::is_lowercase));
    let file = module.unwrap_or(&"lib");
    let source = text(&format!("crates/{}/src/{file}.rt", parts[0]));
    source.is_some_and(|source| source.lines().any(|line| begins(line, name)))
}

/// All files below a folder.
fn files(folder: &Path) -> Vec<PathBuf> {
    let entries = fs::read_dir(folder).expect("a folder");
    let paths = entries.map(|entry| entry.expect("an entry").path());
    let found = paths.flat_map(|path| match path.is_dir() {
        true => files(&path),
        false => vec![path],
    });
    found.collect()
}

/// The words of the code of all crates, their names among them, and of the C header.
fn words() -> &'static HashSet<String> {
    static WORDS: OnceLock<HashSet<String>> = OnceLock::new();
    WORDS.get_or_init(|| {
        let crates = fs::read_dir(root().join("crates")).expect("the crates");
        let names = crates.map(|entry| entry.expect("an entry").file_name());
        let mut words: HashSet<String> = names.filter_map(|name| name.into_string().ok()).collect();
        let mut paths = files(&root().join("crates"));
        paths.push(root().join("include/wivulameno.h"));
        let end = |c: char| c.is_whitespace() || "(){}[],;:.=&|<>*+/".contains(c);
        for path in paths {
            let comment = match path.extension().and_then(|end| end.to_str()) {
                Some("antt") => "--",
                Some("rt" | "h") => "//",
                _ => continue,
            };
            let text = fs::read_to_string(path).expect("a text");
            let code = text.lines().filter_map(|line| line.split(comment).next());
            words.extend(code.flat_map(|line| line.split(end)).map(String::from));
        }
        words
    })
}

/// Whether what stands without a path is there: a file, or a word of the crates. A piece of
/// code is not looked for, and says nothing here.
fn stands_somewhere(part: &str) -> Option<bool> {
    let tops = ["crates/", "docs/", "rust/", "include/"];
    if tops.iter().any(|top| part.starts_with(top)) {
        return Some(part.contains("/NAME/") || root().join(part).exists());
    }
    let is_of_name = |c: char| c.is_alphanumeric() || "_-".contains(c);
    part.chars().all(is_of_name).then(|| words().contains(part))
}

/// What a line says that does not stand, and the number of things it says.
fn check(line: &str) -> (Vec<String>, usize) {
    let mut wrong = vec![];
    let mut count = 0;
    let mut file: Option<(String, String)> = None;
    let mut after_path = false;
    for (i, part) in line.split('`').enumerate() {
        if i % 2 == 0 {
            if part.contains([';', '|']) || (after_path && part.trim() != ":") {
                file = None;
            }
            after_path = false;
            continue;
        }
        let stands = if let Some(path) = file_of(part) {
            file = text(&path).map(|text| (path, text));
            after_path = true;
            file.is_some()
        } else if part.contains("::") && !part.contains(' ') {
            function_stands(part)
        } else if let Some((path, text)) = &file {
            has_name(path, text, part)
        } else if let Some(stands) = stands_somewhere(part) {
            stands
        } else {
            continue;
        };
        count += 1;
        if !stands {
            wrong.push(part.to_string());
        }
    }
    (wrong, count)
}

#[test]
fn every_name_stands() {
    let map = text("docs/THEOREMS.md").expect("the map");
    let (_legend, map) = map.split_once("\n## ").expect("a first section");
    let mut wrong = vec![];
    let mut count = 0;
    for line in map.lines() {
        let (these, said) = check(line);
        wrong.extend(these);
        count += said;
    }
    assert!(wrong.is_empty(), "not there: {wrong:?}");
    assert!(count > 3000, "only {count} names were found");
}

#[test]
fn a_wrong_name_is_seen() {
    let seen = |line: &str| check(line).0;
    assert!(seen("`bits/specs/Bits`: `pack`, `unpack`; `bits::oct`").is_empty());
    assert!(seen("`tests/circuit_cases`: `records`; `bits/must-fail/oct_rounded_down`").is_empty());
    assert_eq!(seen("`bits/specs/Bits`: `pack`, `unpak`"), ["unpak"]);
    assert_eq!(seen("`bits/specs/Bit`: `pack`"), ["bits/specs/Bit"]);
    assert_eq!(seen("`bits::oct_`"), ["bits::oct_"]);
    assert_eq!(seen("`bitz::oct`"), ["bitz::oct"]);
    assert_eq!(seen("`bits/must-fail/none`"), ["bits/must-fail/none"]);
    assert_eq!(seen("`tests/circuit_cases`: `recorded`"), ["recorded"]);
    assert!(seen("`Hiding` and `wv_show`, in `crates/hiding` and `hiding`").is_empty());
    assert_eq!(seen("`Hidding`"), ["Hidding"]);
    assert_eq!(seen("`crates/bits/src/lib.rs`"), ["crates/bits/src/lib.rs"]);
}

/// A word that the file has elsewhere is no definition, no function and no test.
#[test]
fn a_word_elsewhere_is_no_definition() {
    let seen = |line: &str| check(line).0;
    // brought in; in a comment; a variable; in a type
    for name in ["List", "lowest", "b", "ℕ"] {
        assert_eq!(seen(&format!("`bits/specs/Bits`: `{name}`")), [name]);
    }
    // in another module; called there; in a comment there
    for name in ["convert", "write_file", "Converts"] {
        let path = format!("bristol::writing::{name}");
        let stands = name == "write_file";
        assert_eq!(seen(&format!("`{path}`")).is_empty(), stands, "{path}");
    }
    assert_eq!(seen("`bristol::convert`"), ["bristol::convert"]);
    // a function that is no test
    assert_eq!(seen("`tests/theorem_names`: `check`"), ["check"]);
}
