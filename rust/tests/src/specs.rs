//! The definitions in the crates' `specs` folders, and what each of them stands
//! on: enough of the language to follow a name to the text that a reader must
//! believe.

use std::collections::{BTreeMap, BTreeSet};
use std::fs;
use std::path::{Path, PathBuf};

/// The repository.
pub fn root() -> PathBuf {
    Path::new(env!("CARGO_MANIFEST_DIR")).join("../..")
}

/// A definition: the crate and the file of `specs` that it stands in, and its
/// name.
#[derive(Clone, Debug, PartialEq, Eq, PartialOrd, Ord)]
pub struct Item {
    pub krate: String,
    pub file: String,
    pub name: String,
}

/// The text of a definition with the comment before it.
#[derive(Clone, Debug, Default)]
struct Body {
    lines: Vec<String>,
    /// Constructors and fields that stand in it.
    parts: Vec<String>,
}

/// A file of definitions.
#[derive(Debug, Default)]
struct File {
    /// For each name that is brought in: where it comes from, and its name there.
    names: BTreeMap<String, (String, String, String)>,
    /// For each module that is brought in whole.
    modules: BTreeMap<String, (String, String)>,
    /// The names that are brought in and passed on.
    passed: BTreeSet<String>,
    bodies: BTreeMap<String, Body>,
}

/// All files of definitions, by crate and name.
pub struct Specs(BTreeMap<(String, String), File>);

impl Specs {
    pub fn read() -> Specs {
        let mut files = BTreeMap::new();
        for folder in entries(&root().join("crates")) {
            let krate = name_of(&folder);
            for path in entries(&folder.join("specs")) {
                let text = fs::read_to_string(&path).expect("a file of text");
                files.insert((krate.clone(), name_of(&path)), file(&text));
            }
        }
        Specs(files)
    }

    /// The definition that has this name, or that has a part of this name.
    pub fn find(&self, krate: &str, file: &str, name: &str) -> Option<Item> {
        let found = self.0.get(&(krate.into(), file.into()))?;
        if found.passed.contains(name) {
            let (krate, file, name) = &found.names[name];
            return self.find(krate, file, name);
        }
        let bodies = &found.bodies;
        let has_part = |body: &Body| body.parts.iter().any(|part| part == name);
        let mut all = bodies.iter();
        let found = match bodies.contains_key(name) {
            true => Some(name),
            false => all
                .find(|(_, body)| has_part(body))
                .map(|(name, _)| name.as_str()),
        };
        found.map(|name| Item {
            krate: krate.into(),
            file: file.into(),
            name: name.into(),
        })
    }

    /// All definitions.
    pub fn all(&self) -> BTreeSet<Item> {
        let items = self.0.iter().flat_map(|((krate, file), found)| {
            let names = found.bodies.keys();
            names.map(move |name| Item {
                krate: krate.clone(),
                file: file.clone(),
                name: name.clone(),
            })
        });
        items.collect()
    }

    /// The lines of a definition, its comment too.
    pub fn lines(&self, item: &Item) -> usize {
        self.body(item).lines.len()
    }

    fn body(&self, item: &Item) -> &Body {
        &self.0[&(item.krate.clone(), item.file.clone())].bodies[&item.name]
    }

    /// The definitions that a definition names.
    fn below(&self, item: &Item) -> BTreeSet<Item> {
        let file = &self.0[&(item.krate.clone(), item.file.clone())];
        let text = self.body(item).lines.iter();
        let code = text.filter(|line| !line.trim_start().starts_with("--"));
        let code: Vec<&str> = code.map(String::as_str).collect();
        self.named(file, Some(item), &code.join("\n"))
    }

    /// The definitions that a text names, in the sight of a file.
    fn named(&self, file: &File, own: Option<&Item>, text: &str) -> BTreeSet<Item> {
        let mut found = BTreeSet::new();
        for word in words(text) {
            let (first, rest) = word.split_once('.').unwrap_or((word, ""));
            let target = match (file.names.get(first), file.modules.get(first)) {
                (Some((krate, file, name)), _) => self.find(krate, file, name),
                (None, Some((krate, file))) if !rest.is_empty() => self.find(krate, file, rest),
                _ => own.and_then(|own| self.find(&own.krate, &own.file, first)),
            };
            found.extend(target);
        }
        found
    }

    /// The definitions that these stand on, themselves among them.
    pub fn closure(&self, from: BTreeSet<Item>) -> BTreeSet<Item> {
        let mut all = BTreeSet::new();
        let mut next: Vec<Item> = from.into_iter().collect();
        while let Some(item) = next.pop() {
            if all.insert(item.clone()) {
                next.extend(self.below(&item));
            }
        }
        all
    }

    /// The definitions that a text of a source or proof file names, with the
    /// `use` lines of that file.
    pub fn named_in(&self, whole: &str, part: &str) -> BTreeSet<Item> {
        let imports: String = whole
            .lines()
            .filter_map(|line| {
                let line = line.trim_start_matches("ghost ").trim_end_matches(';');
                line.starts_with("use ").then(|| format!("{line}\n"))
            })
            .collect();
        let file = file(&imports);
        self.named(&file, None, part)
    }
}

fn entries(folder: &Path) -> Vec<PathBuf> {
    let Ok(entries) = fs::read_dir(folder) else {
        return vec![];
    };
    let mut paths: Vec<PathBuf> = entries
        .map(|entry| entry.expect("an entry").path())
        .collect();
    paths.sort();
    paths
}

fn name_of(path: &Path) -> String {
    let name = path.file_stem().expect("a name");
    name.to_str().expect("a name in text").into()
}

fn words(text: &str) -> impl Iterator<Item = &str> {
    let end = |c: char| c.is_whitespace() || "(){}[]⟨⟩,;:=λ«»".contains(c);
    text.split(end)
        .map(|word| word.trim_matches('.'))
        .filter(|word| !word.is_empty())
}

/// The crate and the file of a path such as `Rattle.mpc.specs.Run`.
fn place(path: &str) -> Option<(String, String)> {
    let rest = path.strip_prefix("Rattle.")?;
    let (krate, file) = rest.split_once(".specs.")?;
    (!file.contains('.')).then(|| (krate.to_string(), file.to_string()))
}

fn file(text: &str) -> File {
    let mut file = File::default();
    let mut comment: Vec<String> = vec![];
    let mut name = String::new();
    for line in text.lines().map(outdented) {
        if let Some(import) = line.strip_prefix("use ") {
            bring_in(&mut file, import);
        } else if let Some(import) = passed_on(line) {
            let mut own = File::default();
            bring_in(&mut own, import);
            file.passed.extend(own.names.keys().cloned());
            file.names.append(&mut own.names);
        } else if line.starts_with("--") {
            comment.push(line.into());
            name.clear();
        } else if let Some(defined) = defined(line) {
            name = defined.to_string();
            let body = file.bodies.entry(name.clone()).or_default();
            body.lines.append(&mut comment);
            body.lines.push(line.into());
        } else if line.is_empty() {
            comment.clear();
        } else if let Some(body) = file.bodies.get_mut(&name) {
            body.lines.push(line.into());
            body.parts.extend(part(line).map(String::from));
        }
    }
    file
}

/// The first line of a definition as it is outside a module with parameters.
fn outdented(line: &str) -> &str {
    let starts = |rest: &&str| rest.starts_with("unfoldable ") || rest.starts_with("abbrev ");
    line.strip_prefix("  ").filter(starts).unwrap_or(line)
}

/// What a line brings in and passes on.
fn passed_on(line: &str) -> Option<&str> {
    let line = line.strip_prefix("unfoldable ").unwrap_or(line);
    line.strip_prefix("pub use ")
}

/// The name that a line starts to define.
fn defined(line: &str) -> Option<&str> {
    let rest = line
        .trim_start_matches("unfoldable ")
        .trim_start_matches("abbrev ");
    let rest = rest.strip_prefix("pub ")?;
    let rest = rest
        .trim_start_matches("record ")
        .trim_start_matches("data ");
    let name = rest.split_whitespace().next()?;
    (name != "mod").then_some(name)
}

/// The constructor or the field that a line of a definition declares.
fn part(line: &str) -> Option<&str> {
    let rest = line.strip_prefix("  ")?;
    let rest = rest.strip_prefix("pub ").unwrap_or(rest);
    let (name, _) = rest.split_once(" : ")?;
    (!name.contains(' ')).then_some(name)
}

fn bring_in(file: &mut File, import: &str) {
    let (path, names) = match import.split_once(".{") {
        Some((path, names)) => (path, names.trim_end_matches('}')),
        None => {
            let (path, name) = import.split_once(" as ").unwrap_or((import, ""));
            if let Some(place) = place(path.trim()) {
                file.modules.insert(name.trim().into(), place);
            }
            return;
        }
    };
    let Some((krate, from)) = place(path) else {
        return;
    };
    for name in names.split(',') {
        let name = name.trim().trim_matches(['«', '»']);
        let (there, here) = name.split_once(" as ").unwrap_or((name, name));
        let here = here.trim().trim_matches(['«', '»']);
        let target = (krate.clone(), from.clone(), there.trim().to_string());
        file.names.insert(operator(here).into(), target);
    }
}

/// How a name is written where it is used: `◌⊕◌` as `⊕`.
fn operator(name: &str) -> &str {
    let inner = name.trim_matches('◌');
    match inner.is_empty() || inner.contains('◌') {
        true => name,
        false => inner,
    }
}
