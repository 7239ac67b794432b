//! The command line `wv`, and what its example programs share.

pub mod args;
pub mod at_least;
pub mod commands;
pub mod cost;
pub mod failure;
pub mod fresh;
pub mod input;
pub mod json;
pub mod kind;
pub mod names;
pub mod output;
pub mod pages;
pub mod place;
pub mod plot;
pub mod progress;
pub mod report;
pub mod soundness;

use args::Args;
use commands::{Command, ALL};
use failure::{print, Failure};
use names::shown;
use report::Report;
use std::ffi::OsString;
use std::process::ExitCode;

/// Runs the command that these arguments name.
pub fn run(arguments: Vec<OsString>) -> ExitCode {
    let done = dispatch(arguments);
    if let Err(failure) = &done {
        failure::tell(&failure.to_string());
    }
    ExitCode::from(done.err().map_or(0, |failure| failure.status()))
}

fn dispatch(arguments: Vec<OsString>) -> Result<(), Failure> {
    let words: Vec<String> = arguments.iter().map(shown).collect();
    match words.first().map(String::as_str) {
        None => return Err(Failure::Usage("no command; `wv --help` lists them".into())),
        Some("--help" | "-h") => return print(&commands::overview()),
        Some("help") => return help(&words[1..]),
        Some("--version" | "-V") => return print(&format!("wv {}\n", env!("CARGO_PKG_VERSION"))),
        Some(_) => {}
    }
    let Some(command) = Command::named_by(&words) else {
        return group_or_unknown(&words);
    };
    let rest = arguments.into_iter().skip(command.words()).collect();
    run_command(command, rest)
}

/// `wv help` with the words of a command, of a group, or none.
fn help(words: &[String]) -> Result<(), Failure> {
    match Command::named_by(words) {
        Some(command) if command.words() == words.len() => print(&command.full_help()),
        _ if words.is_empty() => print(&commands::overview()),
        _ if words.len() == 1 => match group(&words[0]) {
            Some(group) => print(&group),
            None => Err(unknown(words)),
        },
        _ => Err(unknown(words)),
    }
}

fn run_command(command: &'static Command, rest: Vec<OsString>) -> Result<(), Failure> {
    let mut options = rest.iter().take_while(|word| *word != "--");
    if options.clone().any(|word| word == "--help" || word == "-h") {
        return print(&command.full_help());
    }
    let json = command.flags.contains(&"json") && options.any(|word| word == "--json");
    let mut report = Report::default();
    let args = Args::parse(command, rest);
    let done = args.and_then(|args| (command.run)(&args, &mut report));
    report.end(json, done)
}

/// `wv shelf` alone, or a command that does not exist.
fn group_or_unknown(words: &[String]) -> Result<(), Failure> {
    let Some(group) = group(&words[0]) else {
        return Err(unknown(&words[..1]));
    };
    match words.get(1).map(String::as_str) {
        Some("--help" | "-h") => print(&group),
        _ => Err(Failure::Usage(format!("which one?\n{group}"))),
    }
}

/// The lines of the commands that begin with this word.
fn group(word: &str) -> Option<String> {
    let in_group = |command: &&Command| command.name.split(' ').next() == Some(word);
    let lines: String = ALL.iter().filter(in_group).map(Command::line).collect();
    (!lines.is_empty()).then_some(lines)
}

fn unknown(words: &[String]) -> Failure {
    let words = words.join(" ");
    Failure::Usage(format!("no command `{words}`; `wv --help` lists them"))
}
