//! Statements, as commands take them.

use super::circuit::Circuit;
use crate::args::Args;
use crate::failure::Failure;
use crate::input::Input;
use crate::json::Value;
use crate::kind::Kind;
use crate::output::Taken;
use crate::report::Report;
use statement::{build, Built, Fault, Given};
use std::ffi::OsStr;

/// A statement, and what it gives.
pub struct Asked {
    input: Input,
    pub built: Built,
}

impl Asked {
    pub fn read(args: &Args, value: &OsStr) -> Result<Asked, Failure> {
        let input = args.input(value)?;
        let wrong = |fault| faulty(&input, &STATEMENT, &fault);
        let built = build(&input.bytes).map_err(wrong)?;
        Ok(Asked { input, built })
    }

    /// What `--statement` names, if it is there. It has to give this very circuit: only
    /// then are the circuit's outputs what the statement shows.
    pub fn of_circuit(args: &Args, circuit: &Circuit) -> Result<Option<Asked>, Failure> {
        let Some(value) = args.option("statement") else {
            return Ok(None);
        };
        let asked = Asked::read(args, value)?;
        match asked.built.circuit == circuit.bytes() {
            true => Ok(Some(asked)),
            false => Err(Failure::Unwanted(format!(
                "{} is not what {} asks: `wv build` makes its circuit, which both sides need",
                circuit.name(),
                asked.name()
            ))),
        }
    }

    pub fn name(&self) -> &str {
        self.input.name_or("the typed statement")
    }

    /// The file, which no output replaces.
    pub fn taken(&self) -> Taken {
        vec![(self.input.titled("the statement"), self.input.place.clone())]
    }

    /// What a y shows, as lines `name=value`.
    pub fn lines(&self, y: &[u8]) -> String {
        let values = self.built.y.unpack(y).into_iter();
        let lines = values.map(|(name, value)| format!("{name}={value}\n"));
        lines.collect()
    }

    /// The conditions that a y shows as not met.
    pub fn unmet(&self, y: &[u8]) -> Vec<&str> {
        let values = self.built.y.unpack(y).into_iter();
        let unmet = values.filter(|(_, value)| *value == Given::Condition(false));
        unmet.map(|(name, _)| name).collect()
    }

    /// What the first y shows and the second does not, and the other way round.
    pub fn differences(&self, first: &[u8], second: &[u8]) -> [String; 2] {
        let [first, second] = [first, second].map(|y| self.built.y.unpack(y));
        let without = |one: &[(&str, Given)], other: &[(&str, Given)]| {
            let others = one.iter().filter(|value| !other.contains(value));
            let lines: Vec<String> = others
                .map(|(name, value)| format!("{name}={value}"))
                .collect();
            lines.join(" ")
        };
        [without(&first, &second), without(&second, &first)]
    }

    /// Reports what a y shows.
    pub fn report(&self, y: &[u8], report: &mut Report) {
        self.lines(y).lines().for_each(|line| report.line(line));
        let values = self.built.y.unpack(y).into_iter();
        let keys = values.map(|(name, value)| match value {
            Given::Number(number) => (name.into(), Value::Number(number.to_string())),
            Given::Condition(answer) => (name.into(), Value::Bool(answer)),
        });
        report.set("y", Value::Object(keys.collect()));
    }
}

/// A text that a command takes.
pub struct Expected {
    /// What it is called if it has no name.
    typed: &'static str,
    /// What it is, and what to do about another one.
    wanted: &'static str,
    /// What a text with a fault can look like and still be one.
    looks: Kind,
}

pub const STATEMENT: Expected = Expected {
    typed: "the typed statement",
    wanted: "statement: `wv help build` shows one",
    looks: Kind::Statement,
};

pub const VALUES: Expected = Expected {
    typed: "the typed values",
    wanted: "text with values: it stands behind the statement, as `on_hand=1000 order=250`",
    looks: Kind::Values,
};

/// The failure of a text with a fault, and what it is if it is something else.
pub fn faulty(input: &Input, expected: &Expected, fault: &Fault) -> Failure {
    let Expected {
        typed,
        wanted,
        looks,
    } = expected;
    let kind = Kind::of(&input.bytes);
    let may_be = [*looks, Kind::Text, Kind::Hex, Kind::Empty].contains(&kind);
    let name = input.name_or(typed);
    let text = match may_be {
        true => format!("{name}: {fault}"),
        false => {
            let what = kind.instead_of(wanted);
            let order = match (looks, kind) {
                (Kind::Statement, Kind::Values) => ", and values stand behind it",
                _ => "",
            };
            format!("{name}: {what}{order} ({fault})")
        }
    };
    Failure::File(text)
}
