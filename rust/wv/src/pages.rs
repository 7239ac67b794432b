//! The manual page and the completions of shells, from the table of commands.

mod man;
mod shells;

pub use man::man;
pub use shells::{bash, fish, zsh};

use crate::commands::Command;

/// Values that are numbers, by their names in the usage. All others are files or
/// bytes.
const NUMBERS: [&str; 11] = [
    "S", "N", "M", "TAU", "B", "I", "G", "K", "Q", "SECONDS", "QUOTA",
];

/// What an option's value is.
#[derive(Clone, Copy, PartialEq)]
enum Takes {
    Nothing,
    Number,
    Bytes,
}

/// An option with what the help says of it.
struct Opt {
    name: &'static str,
    takes: Takes,
    about: String,
}

/// The options of a command in the order of its table, `--help` last.
fn options(command: &Command) -> Vec<Opt> {
    let valued = command.options.iter().map(|&name| {
        let takes = match NUMBERS.contains(&value_name(command, name)) {
            true => Takes::Number,
            false => Takes::Bytes,
        };
        (name, takes)
    });
    let flags = command.flags.iter().map(|&name| (name, Takes::Nothing));
    let named = valued.chain(flags).map(|(name, takes)| Opt {
        name,
        takes,
        about: about(command, name),
    });
    let help = Opt {
        name: "help",
        takes: Takes::Nothing,
        about: "tell more about this command".into(),
    };
    named.chain([help]).collect()
}

/// The word behind an option in the usage, as `LOG` in `--log LOG`.
pub fn value_name(command: &Command, option: &str) -> &'static str {
    let mut words = command.usage.split([' ', '\n', '[', ']', '(', ')']);
    let found = words.find(|word| word.strip_prefix("--") == Some(option));
    found.and_then(|_| words.next()).unwrap_or("")
}

/// What the help says of an option, on one line.
pub fn about(command: &Command, option: &str) -> String {
    let is_it = |term: &str| term.split(' ').next() == Some(&format!("--{option}"));
    let parts = parts(command.help);
    let items = parts.into_iter().filter_map(|part| match part {
        Part::Item(term, text) if is_it(&term) => Some(text),
        _ => None,
    });
    items.collect::<Vec<_>>().join(" ")
}

/// A part of a help text.
enum Part {
    /// Lines that are filled.
    Paragraph(String),
    /// An option or a number, and what it means.
    Item(String, String),
}

/// The paragraphs and the items of a help text. An item begins with two or three
/// spaces, and two or more part it from its meaning, which goes on farther in. An
/// option that fills its line has its meaning on the next one.
fn parts(help: &str) -> Vec<Part> {
    let mut parts: Vec<Part> = vec![];
    let mut goes_on = false;
    for line in help.lines() {
        let inner = line.trim_start();
        let indent = line.len() - inner.len();
        match (indent, inner.split_once("  "), parts.last_mut()) {
            (_, None, _) if inner.is_empty() => {
                goes_on = false;
                continue;
            }
            (2 | 3, Some((term, text)), _) => {
                parts.push(Part::Item(term.into(), text.trim_start().into()));
            }
            (2, None, _) if inner.starts_with("--") => {
                parts.push(Part::Item(inner.into(), String::new()));
            }
            (_, _, Some(Part::Paragraph(text) | Part::Item(_, text))) if goes_on => {
                if !text.is_empty() {
                    text.push(' ');
                }
                *text += inner;
            }
            _ => parts.push(Part::Paragraph(inner.into())),
        }
        goes_on = true;
    }
    parts
}

#[cfg(test)]
mod tests {
    use super::*;

    #[test]
    fn parts_of_a_help() {
        let help = "One\ntwo.\n\n  --a A  first\n         line\n  --longest WORD\n         below\n\n   6  six\n";
        let shown = parts(help).into_iter().map(|part| match part {
            Part::Paragraph(text) => text,
            Part::Item(term, text) => format!("{term} = {text}"),
        });
        let expected = [
            "One two.",
            "--a A = first line",
            "--longest WORD = below",
            "6 = six",
        ];
        assert_eq!(shown.collect::<Vec<_>>(), expected);
    }

    /// Whatever is in the table has a meaning in the help.
    #[test]
    fn every_option_has_a_meaning() {
        for command in crate::commands::ALL {
            for option in options(command) {
                assert!(
                    !option.about.is_empty(),
                    "{} --{}",
                    command.name,
                    option.name
                );
            }
        }
    }
}
