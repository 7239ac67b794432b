//! What a command has to tell at its end, as lines or as JSON.

use crate::failure::{print, Failure};
use crate::json::{Object, Value};

/// Lines for a reader, and the same for a program.
#[derive(Default)]
pub struct Report {
    text: String,
    object: Object,
}

impl Report {
    /// A line for a reader.
    pub fn line(&mut self, line: &str) {
        self.text += line;
        self.text.push('\n');
    }

    /// A key for a program.
    pub fn set(&mut self, key: &'static str, value: impl Into<Value>) {
        self.object.set(key, value);
    }

    /// What a program is told.
    pub fn object(&mut self) -> &mut Object {
        &mut self.object
    }

    /// A number for both.
    pub fn number(&mut self, name: &str, key: &'static str, number: impl Into<u64>) {
        let number = number.into();
        self.line(&format!("{name} {number}"));
        self.set(key, number);
    }

    /// Prints it, also when the command has failed. A failure comes before one of
    /// standard output.
    pub fn end(mut self, json: bool, done: Result<(), Failure>) -> Result<(), Failure> {
        if json {
            let failure = done.as_ref().err();
            self.set("refused", failure.and_then(Failure::number));
            self.set("message", failure.map(Failure::to_string));
            self.text = self.object.line();
        }
        done.and(print(&self.text))
    }
}
