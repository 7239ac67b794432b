//! One JSON object on one line.

use std::fmt::Write;

/// What a key can have.
pub enum Value {
    /// No value.
    Null,
    /// True or false.
    Bool(bool),
    /// A number, as its decimal digits.
    Number(String),
    /// A text.
    Text(String),
    /// Keys with their values.
    Object(Vec<(String, Value)>),
    /// Objects, one after the other.
    List(Vec<Object>),
}

impl From<bool> for Value {
    fn from(value: bool) -> Value {
        Value::Bool(value)
    }
}

impl From<u32> for Value {
    fn from(value: u32) -> Value {
        Value::Number(value.to_string())
    }
}

impl From<u64> for Value {
    fn from(value: u64) -> Value {
        Value::Number(value.to_string())
    }
}

impl From<&str> for Value {
    fn from(value: &str) -> Value {
        Value::Text(value.into())
    }
}

impl From<String> for Value {
    fn from(value: String) -> Value {
        Value::Text(value)
    }
}

impl<T: Into<Value>> From<Option<T>> for Value {
    fn from(value: Option<T>) -> Value {
        value.map_or(Value::Null, T::into)
    }
}

/// Keys with their values, in the order in which they were first set.
#[derive(Default)]
pub struct Object(Vec<(&'static str, Value)>);

impl Object {
    /// Sets a key, in the place of what it had.
    pub fn set(&mut self, key: &'static str, value: impl Into<Value>) {
        let value = value.into();
        match self.0.iter_mut().find(|(known, _)| *known == key) {
            Some((_, old)) => *old = value,
            None => self.0.push((key, value)),
        }
    }

    /// The object on a line, with the line's end.
    pub fn line(&self) -> String {
        self.text() + "\n"
    }

    fn text(&self) -> String {
        object(self.0.iter().map(|(key, value)| (*key, value)))
    }
}

fn object<'a>(pairs: impl Iterator<Item = (&'a str, &'a Value)>) -> String {
    let pairs: Vec<String> = pairs
        .map(|(key, value)| format!("{}:{}", quoted(key), text(value)))
        .collect();
    format!("{{{}}}", pairs.join(","))
}

fn text(value: &Value) -> String {
    match value {
        Value::Null => "null".into(),
        Value::Bool(value) => value.to_string(),
        Value::Number(digits) => digits.clone(),
        Value::Text(text) => quoted(text),
        Value::Object(pairs) => object(pairs.iter().map(|(key, value)| (key.as_str(), value))),
        Value::List(objects) => {
            let objects: Vec<String> = objects.iter().map(Object::text).collect();
            format!("[{}]", objects.join(","))
        }
    }
}

/// A string with what RFC 8259 wants escaped.
fn quoted(text: &str) -> String {
    let mut quoted = String::from("\"");
    for char in text.chars() {
        match char {
            '"' | '\\' => quoted.extend(['\\', char]),
            '\n' => quoted += "\\n",
            control if control < ' ' => {
                let _ = write!(quoted, "\\u{:04x}", u32::from(control));
            }
            other => quoted.push(other),
        }
    }
    quoted.push('"');
    quoted
}

#[cfg(test)]
mod tests {
    use super::*;

    #[test]
    fn a_list_of_objects() {
        let mut one = Object::default();
        one.set("accepted", true);
        let mut all = Object::default();
        all.set("none", Value::List(vec![]));
        all.set("two", Value::List(vec![one, Object::default()]));
        let expected = r#"{"none":[],"two":[{"accepted":true},{}]}"#;
        assert_eq!(all.line(), format!("{expected}\n"));
    }

    #[test]
    fn an_object_is_one_line() {
        let mut object = Object::default();
        object.set("slots", 3_u32);
        object.set("accepted", false);
        object.set("bits", Value::Number("128.0".into()));
        object.set("message", "a \"b\" \\ ü\n\x1b");
        object.set("refused", None::<u32>);
        object.set("accepted", true);
        object.set(
            "y",
            Value::Object(vec![("a".into(), 1_u32.into()), ("b".into(), true.into())]),
        );
        object.set("none", Value::Object(vec![]));
        let line = object.line();
        let expected = r#"{"slots":3,"accepted":true,"bits":128.0,"message":"a \"b\" \\ ü\n\u001b","refused":null,"y":{"a":1,"b":true},"none":{}}"#;
        assert_eq!(line, format!("{expected}\n"));
    }
}
