//! The manual page and the completions have exactly the commands and options that
//! the help has, and all versions are one.
#![cfg(unix)]

mod common;

use common::skipped;
use std::collections::{BTreeMap, BTreeSet};
use std::path::{Path, PathBuf};
use std::process::{Command, Stdio};
use std::{env, fs};

/// The options of each command, without their dashes.
type Options = BTreeMap<String, BTreeSet<String>>;

fn printed(program: &str, words: &[&str]) -> String {
    let ended = Command::new(program).args(words).output();
    let ended = ended.expect("it starts");
    assert!(ended.status.success(), "{words:?}: {ended:?}");
    String::from_utf8(ended.stdout).expect("text")
}

fn page(kind: &str) -> String {
    printed(env!("CARGO_BIN_EXE_pages"), &[kind])
}

fn wv(words: &[&str]) -> String {
    printed(env!("CARGO_BIN_EXE_wv"), words)
}

/// The commands of `wv --help`, in its order.
fn commands() -> Vec<String> {
    let help = wv(&["--help"]);
    let lines = help.lines().filter_map(|line| line.strip_prefix("  wv "));
    let name = |line: &str| line.split("  ").next().expect("a name").trim().to_string();
    // A name that fills its column has one space behind it.
    let cut = |line: &str| match line.split_at_checked(14) {
        Some((name, about)) if about.starts_with(|c: char| c.is_ascii_uppercase()) => {
            name.trim().to_string()
        }
        _ => name(line),
    };
    let commands: Vec<String> = lines.map(cut).collect();
    assert!(commands.len() >= 12, "{commands:?}");
    commands
}

/// What the help of each command lists.
fn helped() -> Options {
    let of = |command: &String| {
        let words: Vec<&str> = ["help"].into_iter().chain(command.split(' ')).collect();
        let help = wv(&words);
        let lines = help.lines().filter_map(|line| line.strip_prefix("  --"));
        let name = |line: &str| line.split([' ', '=']).next().expect("a name").to_string();
        lines.map(name).chain(["help".into()]).collect()
    };
    commands()
        .iter()
        .map(|command| (command.clone(), of(command)))
        .collect()
}

/// The words that begin with `--` in a text.
fn dashed(text: &str) -> BTreeSet<String> {
    let words = text.split(|c: char| !c.is_ascii_alphanumeric() && c != '-');
    let words = words.filter_map(|word| word.strip_prefix("--"));
    words
        .filter(|word| !word.is_empty())
        .map(String::from)
        .collect()
}

#[test]
fn the_manual_page() {
    let page = page("man").replace("\\-", "-");
    let commands_part = page.split(".SH COMMANDS\n").nth(1).expect("it");
    let commands_part = commands_part.split(".SH ").next().expect("its end");
    let mut found = Options::new();
    for section in commands_part.split(".SS wv ").skip(1) {
        let (name, text) = section.split_once('\n').expect("a line");
        let terms = text.split(".TP\n").skip(1);
        let terms = terms.filter_map(|term| term.strip_prefix("\\fB--"));
        let name_of = |term: &str| term.split([' ', '\\']).next().expect("it").to_string();
        let terms = terms.map(name_of).chain(["help".into()]).collect();
        found.insert(name.into(), terms);
    }
    assert_eq!(found, helped());
    let synopsis = page.split(".SH SYNOPSIS\n").nth(1).expect("it");
    let synopsis = synopsis.split(".SH ").next().expect("its end");
    for (command, options) in helped() {
        let line = format!("\\fBwv {command}\\fR ");
        let usage = synopsis.lines().find_map(|text| text.strip_prefix(&line));
        let mut used = dashed(usage.expect("a usage"));
        used.insert("help".into());
        assert_eq!(used, options, "{command}");
    }
}

/// Asks bash itself what it would offer.
fn bash_offers(script: &Path, words: &[&str]) -> BTreeSet<String> {
    let line = "source \"$1\"; shift; COMP_WORDS=(wv \"$@\"); COMP_CWORD=$#; _wv; \
                printf '%s\\n' \"${COMPREPLY[@]}\"";
    let mut all = vec!["-c", line, "bash", script.to_str().expect("text")];
    all.extend(words);
    let offered = printed("bash", &all);
    let words = offered.lines().filter(|word| !word.is_empty());
    words.map(String::from).collect()
}

fn file_of(kind: &str) -> PathBuf {
    let file = Path::new(env!("CARGO_TARGET_TMPDIR")).join(format!("wv.{kind}"));
    fs::write(&file, page(kind)).expect("a file");
    file
}

fn first_words() -> BTreeSet<String> {
    let first = |name: &String| name.split(' ').next().expect("a word").to_string();
    let words = commands().iter().map(first).collect::<Vec<_>>();
    words.into_iter().chain(["help".into()]).collect()
}

/// The second words of the commands that begin with `shelf`.
fn of_shelf() -> Vec<String> {
    let commands = commands();
    let words = commands
        .iter()
        .filter_map(|name| name.strip_prefix("shelf "));
    words.map(String::from).collect()
}

fn with_dashes(options: &BTreeSet<String>) -> BTreeSet<String> {
    options.iter().map(|name| format!("--{name}")).collect()
}

#[test]
fn bash() {
    let script = file_of("bash");
    let mut first = first_words();
    first.extend(["--help".into(), "--version".into()]);
    assert_eq!(bash_offers(&script, &[""]), first);
    assert_eq!(bash_offers(&script, &["help", ""]), first_words());
    let shelf: BTreeSet<String> = of_shelf().into_iter().collect();
    assert!(shelf.len() >= 3);
    assert_eq!(bash_offers(&script, &["shelf", ""]), shelf);
    assert_eq!(bash_offers(&script, &["help", "shelf", ""]), shelf);
    for (command, options) in helped() {
        let mut words: Vec<&str> = command.split(' ').collect();
        words.push("-");
        assert_eq!(
            bash_offers(&script, &words),
            with_dashes(&options),
            "{command}"
        );
        let last = words.len() - 1;
        words[last] = "";
        assert!(bash_offers(&script, &words).is_empty(), "{command}");
    }
}

/// zsh offers nothing outside of a terminal, so its script is read.
#[test]
fn zsh() {
    let script = page("zsh");
    let listed = script.split("commands=(\n").nth(1).expect("a list");
    let listed = listed.split("    )\n").next().expect("its end");
    let listed = listed.lines().map(|line| line.trim().trim_matches('\''));
    let listed: BTreeSet<String> = listed
        .map(|line| line.split(':').next().expect("a word").to_string())
        .collect();
    assert_eq!(listed, first_words());
    assert!(script.contains(&format!("compadd {}\n", of_shelf().join(" "))));
    let arms = script.split("    case $command in\n").nth(1).expect("it");
    let mut found = Options::new();
    for arm in arms.split("        ;;\n") {
        let Some((name, options)) = arm.trim().split_once("')\n") else {
            continue;
        };
        let options = options.lines().map(|line| line.trim());
        let options = options.filter_map(|line| line.strip_prefix("'--"));
        let name_of = |line: &str| line.split(['=', '[']).next().expect("it").to_string();
        found.insert(
            name.trim_matches('\'').into(),
            options.map(name_of).collect(),
        );
    }
    assert_eq!(found, helped());
    if let Some(zsh) = installed("zsh", "the script for zsh, read by zsh itself") {
        let file = file_of("zsh");
        printed(&zsh, &["-n", file.to_str().expect("text")]);
    }
}

/// Read, and asked where fish is installed.
#[test]
fn fish() {
    let script = page("fish");
    let mut found = Options::new();
    for line in script.lines().filter(|line| line.starts_with("complete ")) {
        let (_, rest) = line.split_once("-n '__wv_at ").unwrap_or(("", ""));
        let (condition, rest) = rest.split_once("' ").unwrap_or(("", ""));
        let option = rest.strip_prefix("-l ");
        if let Some(option) = option.and_then(|rest| rest.split(' ').next()) {
            let options = found.entry(condition.to_string()).or_default();
            options.insert(option.to_string());
        }
    }
    assert_eq!(found, helped());
    let Some(fish) = installed("fish", "what fish itself offers") else {
        return;
    };
    let file = file_of("fish");
    let offered = |line: &str| -> BTreeSet<String> {
        let ask = format!("source {}; complete -C '{line}'", file.display());
        let text = printed(&fish, &["--no-config", "-c", &ask]);
        let word = |line: &str| line.split('\t').next().expect("a word").to_string();
        text.lines().map(word).collect()
    };
    assert_eq!(offered("wv "), first_words());
    for (command, options) in helped() {
        let options = with_dashes(&options);
        assert_eq!(offered(&format!("wv {command} --")), options, "{command}");
    }
}

/// The program, if it is there; else what is left out is said.
fn installed(program: &str, what: &str) -> Option<String> {
    let mut command = Command::new(program);
    let command = command.arg("--version").stdout(Stdio::null());
    let found = command.stdin(Stdio::null()).status();
    if found.is_err() {
        skipped(what, &format!("{program} is not installed"));
    }
    found.is_ok().then(|| program.to_string())
}

#[test]
fn one_version() {
    let header = include_str!("../../../include/wivulameno.h");
    let mut lines = header.lines();
    let version = lines.find_map(|line| line.strip_prefix("#define WV_VERSION \""));
    let version = version.expect("a version").trim_end_matches('"');
    assert_eq!(version, env!("CARGO_PKG_VERSION"));
    assert_eq!(version, wivulameno::VERSION);
    for word in ["--version", "-V"] {
        assert_eq!(wv(&[word]), format!("wv {version}\n"));
    }
    let title = format!(".TH WV 1 \"\" \"wv {version}\" ");
    assert!(page("man").starts_with(&title));
    let changes = include_str!("../../../CHANGELOG.md");
    let first = changes.lines().find_map(|line| line.strip_prefix("## "));
    let first = first.and_then(|line| line.split(',').next());
    assert_eq!(first, Some(version));
}
