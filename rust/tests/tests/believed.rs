//! What a reader must believe: the definitions that the promises of the
//! operations and of FIPS 202's step mappings, and the statements of the theorems
//! stand on. What only serves the contracts of steps (`specs/Steps.antt`,
//! in `circuit` `specs/FieldSteps.antt`, in `shared` `specs/StateSteps.antt` too) is not among them.

use std::collections::{BTreeMap, BTreeSet};
use std::fs;
use std::path::{Path, PathBuf};
use tests::specs::{root, Item, Specs};

fn text(path: &Path) -> String {
    fs::read_to_string(path).expect("a file of text")
}

/// All files below a folder that end so.
fn files(folder: &Path, end: &str) -> Vec<PathBuf> {
    let Ok(entries) = fs::read_dir(folder) else {
        return vec![];
    };
    let paths = entries.map(|entry| entry.expect("an entry").path());
    let found = paths.flat_map(|path| match path.is_dir() {
        true => files(&path, end),
        false => vec![path],
    });
    let is_such = |path: &PathBuf| path.to_str().expect("text").ends_with(end);
    found.filter(is_such).collect()
}

/// The promise of a function: its `ensures` clauses, between its name and its body.
fn promise(source: &str, name: &str) -> Option<String> {
    let starts = [
        format!("pub fn {name}("),
        format!("pub extern \"C\" fn {name}("),
    ];
    let mut lines = source.lines();
    lines.find(|line| starts.iter().any(|start| line.starts_with(start)))?;
    let mut promises = vec![];
    let mut is_promise = false;
    for line in lines.take_while(|line| *line != "{") {
        // a clause can go on over further lines
        match line.trim_start().split([' ', '*']).next() {
            Some("ensures") => is_promise = true,
            Some("requires") => is_promise = false,
            _ => (),
        }
        if is_promise {
            promises.push(line);
        }
    }
    Some(promises.join("\n"))
}

/// The operations: what the C functions call, as crate, module and function.
fn operations(interface: &str) -> Vec<Vec<String>> {
    let end = |c: char| !(c.is_alphanumeric() || c == '_' || c == ':');
    let mut words = interface.split('\n').filter(|line| !line.contains("ghost"));
    let mut found: Vec<Vec<String>> = vec![];
    for line in words.by_ref() {
        for call in line.split('(').rev().skip(1) {
            let name = call.rsplit(end).next().unwrap_or("");
            let parts: Vec<String> = name.split("::").map(String::from).collect();
            let is_function = |name: &String| name.starts_with(char::is_lowercase);
            if parts.len() > 1 && parts.iter().all(is_function) && parts[0] != "refusal" {
                found.push(parts);
            }
        }
    }
    found.sort();
    found.dedup();
    found
}

/// The step mappings of FIPS 202, the round and the permutation: their promises
/// are read beside the standard.
const BESIDE_THE_STANDARD: [&str; 7] = ["theta", "rho", "pi", "chi", "iota", "round", "keccak_f"];

/// The definitions that the promises of all operations name.
fn promised(specs: &Specs) -> (BTreeSet<Item>, usize) {
    let interface = text(&root().join("crates/wivulameno/src/lib.rt"));
    let mut found = BTreeSet::new();
    let mut count = 0;
    for line in interface.lines() {
        if let Some(name) = line.strip_prefix("pub extern \"C\" fn ") {
            let name = name.split('(').next().expect("a name");
            let promise = promise(&interface, name).expect("a promise");
            found.extend(specs.named_in(&interface, &promise));
            count += 1;
        }
    }
    for operation in operations(&interface) {
        let (krate, name) = (&operation[0], operation.last().expect("a name"));
        let folder = root().join("crates").join(krate).join("src");
        let sources: Vec<String> = files(&folder, ".rt")
            .iter()
            .map(|path| text(path))
            .collect();
        let source = sources
            .iter()
            .find(|source| promise(source, name).is_some());
        let source = source.unwrap_or_else(|| panic!("{operation:?} is not there"));
        let promise = promise(source, name).expect("it is there");
        assert!(!promise.is_empty(), "{operation:?} promises nothing");
        found.extend(specs.named_in(source, &promise));
        count += 1;
    }
    let permutation = text(&root().join("crates/permutation/src/lib.rt"));
    for name in BESIDE_THE_STANDARD {
        let promise = promise(&permutation, name).expect("a promise");
        assert!(!promise.is_empty(), "{name} promises nothing");
        found.extend(specs.named_in(&permutation, &promise));
    }
    (found, count)
}

/// The statements of the theorems: in `proofs`, `pub theorem : Statement`.
fn stated(specs: &Specs) -> BTreeSet<Item> {
    let mut found = BTreeSet::new();
    for path in files(&root().join("crates"), ".antt") {
        let parts: Vec<&str> = path.iter().filter_map(|part| part.to_str()).collect();
        if !parts.contains(&"proofs") {
            continue;
        }
        let proofs = text(&path);
        for line in proofs.lines() {
            let statement = line
                .strip_prefix("pub ")
                .and_then(|line| line.split_once(" : "));
            let Some((_, statement)) = statement else {
                continue;
            };
            if !statement.contains(' ') && statement.starts_with(char::is_uppercase) {
                found.extend(specs.named_in(&proofs, statement));
            }
        }
    }
    found
}

/// What the promises of all operations and the statements of all theorems stand
/// on.
fn believed(specs: &Specs) -> BTreeSet<Item> {
    let (promised, operations) = promised(specs);
    let stated = stated(specs);
    assert!(
        operations >= 30 && stated.len() >= 10,
        "{operations} {}",
        stated.len()
    );
    specs.closure(promised.union(&stated).cloned().collect())
}

/// Whether a definition stands in a file for steps alone.
fn is_of_steps(item: &Item) -> bool {
    item.file.ends_with("Steps")
}

#[test]
fn no_step_is_believed() {
    let specs = Specs::read();
    let believed = believed(&specs);
    let mut lines: BTreeMap<String, usize> = BTreeMap::new();
    for item in &believed {
        let file = format!("{}/specs/{}", item.krate, item.file);
        *lines.entry(file).or_default() += specs.lines(item);
    }
    println!("what a reader must believe, in lines:");
    for (file, count) in &lines {
        println!("{count:>6}  {file}");
    }
    println!(
        "{:>6}  in all, {} definitions",
        lines.values().sum::<usize>(),
        believed.len()
    );
    let steps: Vec<&Item> = believed.iter().filter(|item| is_of_steps(item)).collect();
    assert!(steps.is_empty(), "steps are believed: {steps:#?}");
}

/// What nothing believed stands on is in `Steps`, so that the other files hold
/// what must be read and no more.
#[test]
fn what_is_not_believed_is_a_step() {
    let specs = Specs::read();
    let believed = believed(&specs);
    let all = specs.all().into_iter().filter(|item| !is_of_steps(item));
    let idle: Vec<Item> = all.filter(|item| !believed.contains(item)).collect();
    assert!(idle.is_empty(), "not believed: {idle:#?}");
}

/// A name is followed from an operation through several files.
#[test]
fn a_definition_is_followed() {
    let specs = Specs::read();
    let from = specs
        .find("proof", "Check", "check_op")
        .expect("it is there");
    let below = specs.closure(BTreeSet::from([from]));
    for (krate, file, name) in [
        ("circuit", "File", "read_circuit"),
        ("circuit", "Fields", "good_record"),
        ("refusal", "Outcome", "Answer"),
        ("keccak", "Sponge", "sha3_256"),
        ("permutation", "Permutation", "χ"),
        ("bits", "Bits", "oct"),
    ] {
        let item = specs.find(krate, file, name);
        assert!(item.is_some_and(|item| below.contains(&item)), "{name}");
    }
    assert!(specs.find("proof", "Check", "none").is_none());
}
