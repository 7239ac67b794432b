//! Statements as texts.

use super::{Asked, Condition, Number, Shown, Value};
use std::fmt::Write;
use tests::random::Random;

/// Writes a statement with white space, comments and brackets that it could do without.
struct Writer<'a> {
    random: &'a mut Random,
    text: String,
}

impl Writer<'_> {
    fn word(&mut self, word: &str) {
        self.text += word;
        self.text += match self.random.below(12) {
            0 => "\n",
            1 => "\t ",
            2 => " # a or b, (not ü\n",
            3 => "\r\n",
            _ => " ",
        };
    }

    /// Writes it in brackets if they are needed, and else sometimes.
    fn in_brackets(&mut self, needed: bool, write: impl FnOnce(&mut Self)) {
        let has = needed || self.random.once_in(6);
        if has {
            self.word("(");
        }
        write(self);
        if has {
            self.word(")");
        }
    }

    fn joined<T>(&mut self, sign: &str, list: &[T], write: impl Fn(&mut Self, &T)) {
        for (place, one) in list.iter().enumerate() {
            if place > 0 {
                self.word(sign);
            }
            write(self, one);
        }
    }

    /// Within a sum a sum needs brackets.
    fn number(&mut self, number: &Number, in_sum: bool) {
        let is_sum = matches!(number, Number::Sum(_));
        self.in_brackets(is_sum && in_sum, |writer| match number {
            Number::Field(field) => writer.word(&format!("f{field}")),
            Number::Named(name) => writer.word(&format!("v{name}")),
            Number::Constant(constant) => writer.word(&constant.to_string()),
            Number::Sum(terms) => {
                writer.joined("+", terms, |writer, term| writer.number(term, true))
            }
        });
    }

    /// How strongly a condition binds: `or`, `and`, `not`, the rest.
    fn strength(condition: &Condition) -> usize {
        match condition {
            Condition::Or(_) => 0,
            Condition::And(_) => 1,
            Condition::Not(_) => 2,
            _ => 3,
        }
    }

    /// A condition where one of this strength or more can stand without brackets.
    fn condition(&mut self, condition: &Condition, least: usize) {
        let needed = Writer::strength(condition) < least;
        self.in_brackets(needed, |writer| match condition {
            Condition::Named(name) => writer.word(&format!("v{name}")),
            Condition::Compare(left, sign, right) => {
                writer.number(left, false);
                writer.word(sign);
                writer.number(right, false);
            }
            Condition::In(number, is_in, ranges) => {
                writer.number(number, false);
                if !is_in {
                    writer.word("not");
                }
                writer.word("in");
                writer.word("(");
                writer.joined(",", ranges, |writer, (low, high)| {
                    writer.word(&low.to_string());
                    if low < high {
                        writer.word("to");
                        writer.word(&high.to_string());
                    }
                });
                writer.word(")");
            }
            Condition::Not(condition) => {
                writer.word("not");
                writer.condition(condition, 2);
            }
            Condition::And(list) => {
                writer.joined("and", list, |writer, one| writer.condition(one, 2))
            }
            Condition::Or(list) => {
                writer.joined("or", list, |writer, one| writer.condition(one, 1))
            }
        });
    }

    fn value(&mut self, value: &Value) {
        match value {
            Value::Number(number) => self.number(number, false),
            Value::Condition(condition) => self.condition(condition, 0),
        }
    }

    fn statement(&mut self, asked: &Asked) {
        self.word("row");
        let fields: Vec<(usize, u32)> = asked.widths.iter().copied().enumerate().collect();
        self.joined(",", &fields, |writer, (field, width)| {
            writer.word(&format!("f{field}:{width}"));
        });
        for (name, value) in asked.values.iter().enumerate() {
            self.word("let");
            let _ = write!(self.text, "v{name}");
            self.word("=");
            self.value(value);
        }
        self.word("show");
        self.joined(",", &asked.shown, |writer, shown| match shown {
            Shown::Field(field) => writer.word(&format!("f{field}")),
            Shown::Value(name) => writer.word(&format!("v{name}")),
        });
    }
}

/// The text of a statement, each time another one.
pub fn written(asked: &Asked, random: &mut Random) -> String {
    let mut writer = Writer {
        random,
        text: String::new(),
    };
    writer.statement(asked);
    writer.text
}
