//! The manual page `wv.1`, in roff.

use super::{parts, Part};
use crate::commands::{Command, ALL, COMMON};

/// The whole page.
pub fn man() -> String {
    let version = env!("CARGO_PKG_VERSION");
    let mut page = format!(".TH WV 1 \"\" \"wv {version}\" \"User Commands\"\n");
    page += ".SH NAME\nwv \\- prove facts about rows that others may not read\n";
    page += ".SH SYNOPSIS\n";
    for command in ALL {
        page += &synopsis(command);
    }
    page += "\\fBwv help\\fR [\\fICOMMAND\\fR]\n.br\n\\fBwv \\-\\-version\\fR\n";
    page += ".SH COMMANDS\n";
    for command in ALL {
        page += &section(command);
    }
    let (bytes, status) = COMMON.split_once("Exit status:\n").expect("both");
    page += ".SH INPUT AND OUTPUT\n";
    page += &body(bytes);
    page += ".SH EXIT STATUS\n";
    page + &body(status)
}

fn synopsis(command: &Command) -> String {
    let usage: Vec<&str> = command.usage.split_whitespace().collect();
    let usage = escaped(&usage.join(" "));
    format!("\\fBwv {}\\fR {usage}\n.br\n", escaped(command.name))
}

fn section(command: &Command) -> String {
    let Command {
        name,
        about,
        help,
        example,
        ..
    } = command;
    let mut text = format!(".SS wv {}\n{}\n", escaped(name), line(about));
    text += &body(help);
    text += ".PP\nFor example:\n.PP\n.nf\n";
    for part in example.lines() {
        text += &line(part);
        text.push('\n');
    }
    text + ".fi\n"
}

/// A help text: its paragraphs, and its items with a hanging indent.
fn body(help: &str) -> String {
    let mut text = String::new();
    for part in parts(help) {
        text += &match part {
            Part::Paragraph(words) => format!(".PP\n{}\n", line(&words)),
            Part::Item(term, words) => {
                format!(".TP\n\\fB{}\\fR\n{}\n", escaped(&term), line(&words))
            }
        };
    }
    text
}

/// A line of text that is no request, whatever it begins with.
fn line(text: &str) -> String {
    let text = escaped(text);
    match text.starts_with(['.', '\'']) {
        true => format!("\\&{text}"),
        false => text,
    }
}

/// Text with the characters that roff would take for its own.
fn escaped(text: &str) -> String {
    let text = text.replace('\\', "\\e").replace('-', "\\-");
    text.replace('`', "\\(ga").replace('\'', "\\(aq")
}
