//! The bytes that an argument stands for.

use crate::failure::{at, Failure};
use crate::names::shown;
use crate::place::{descriptor, Place};
use std::cell::RefCell;
use std::ffi::OsStr;
use std::fs::File;
use std::io::{self, Read};
use std::path::Path;
use wivulameno::limits::{MAX_CIRCUIT, MAX_PROOF};

/// More than the longest proof and than a text of the most gates, and less than
/// fills a memory.
pub const LIMIT: u64 = 1 << 24;
const _: () = assert!(MAX_PROOF < LIMIT as usize && MAX_CIRCUIT < MAX_PROOF);

/// What was read, and where.
#[derive(Clone)]
pub struct Input {
    /// The bytes themselves.
    pub bytes: Vec<u8>,
    /// The file, so that no output takes its place.
    pub place: Place,
    /// `row.bin`, `standard input`, `fd:3`; `None` for what was typed.
    name: Option<String>,
    /// Was it typed as a text?
    is_text: bool,
}

/// For a file that cannot be opened. A name that no file has may be typed bytes.
fn not_opened(name: &str) -> impl Fn(io::Error) -> Failure + '_ {
    move |error| match error.kind() {
        io::ErrorKind::NotFound => Failure::File(format!(
            "{name}: {error}; what is typed begins with `text:` or `hex:`"
        )),
        _ => at(name)(error),
    }
}

impl Input {
    fn typed(bytes: Vec<u8>, is_text: bool) -> Input {
        Input {
            bytes,
            place: Place::Nothing,
            name: None,
            is_text,
        }
    }

    fn read(from: impl Read, place: Place, name: String) -> Result<Input, Failure> {
        let mut bytes = vec![];
        let read = from.take(LIMIT + 1).read_to_end(&mut bytes);
        if read.map_err(at(&name))? as u64 > LIMIT {
            let text = format!("{name}: more than {LIMIT} bytes, which is too long for an input");
            return Err(Failure::File(text));
        }
        Ok(Input {
            bytes,
            place,
            name: Some(name),
            is_text: false,
        })
    }

    /// Can it be something else than the bytes that are wanted, a file or a text? What is
    /// typed as digits is meant as it is.
    pub fn can_be_other(&self) -> bool {
        self.name.is_some() || self.is_text
    }

    /// For a message: what it is, and its name.
    pub fn titled(&self, what: &str) -> String {
        match &self.name {
            Some(name) => format!("{what} {name}"),
            None => what.into(),
        }
    }

    /// For a message: its name, or what it is if it has none.
    pub fn name_or<'a>(&'a self, what: &'a str) -> &'a str {
        self.name.as_deref().unwrap_or(what)
    }
}

/// How bytes are given.
enum Form<'a> {
    Hex(&'a [u8]),
    Text(&'a [u8]),
    Descriptor(u32),
    File(&'a OsStr),
}

fn form(value: &OsStr) -> Result<Form<'_>, Failure> {
    let word = value.as_encoded_bytes();
    if let Some(digits) = word.strip_prefix(b"hex:") {
        return Ok(Form::Hex(digits));
    }
    if let Some(typed) = word.strip_prefix(b"text:") {
        return Ok(Form::Text(typed));
    }
    if word.starts_with(b"fd:") {
        let number = value.to_str().and_then(|word| word[3..].parse().ok());
        let text = format!("{}: a descriptor is a number, as in fd:3", shown(value));
        return number.map(Form::Descriptor).ok_or(Failure::Usage(text));
    }
    match word == b"-" {
        true => Ok(Form::Descriptor(0)),
        false => Ok(Form::File(value)),
    }
}

/// The descriptors that were read, each of which gives its bytes once.
#[derive(Default)]
pub struct Inputs(RefCell<Vec<u32>>);

impl Inputs {
    /// The bytes of a file, of an open descriptor, or typed.
    pub fn get(&self, value: &OsStr) -> Result<Input, Failure> {
        match form(value)? {
            Form::Hex(digits) => from_hex(digits).map(|bytes| Input::typed(bytes, false)),
            Form::Text(typed) => Ok(Input::typed(typed.into(), true)),
            Form::Descriptor(number) => self.descriptor(number),
            Form::File(path) => {
                let name = shown(path);
                let file = File::open(path).map_err(not_opened(&name))?;
                Input::read(file, Place::of(Path::new(path)), name)
            }
        }
    }

    /// The same, but for a secret, which must not be typed: `option` names it.
    pub fn secret(&self, option: &str, value: &OsStr) -> Result<Input, Failure> {
        if matches!(form(value)?, Form::Hex(_) | Form::Text(_)) {
            let text = format!(
                "{option} is a secret and is not typed, because the command line is seen by \
                 other users in the process list and kept in the shell's history: give a file, \
                 `-` or `fd:N`"
            );
            return Err(Failure::Usage(text));
        }
        self.get(value)
    }

    fn descriptor(&self, number: u32) -> Result<Input, Failure> {
        let name = match number {
            0 => "standard input".to_string(),
            _ => format!("fd:{number}"),
        };
        if self.0.borrow().contains(&number) {
            return Err(Failure::Usage(format!("{name} can be read once")));
        }
        self.0.borrow_mut().push(number);
        let file = descriptor(number);
        let place = file.as_ref().map_or(Place::Nothing, Place::of_open);
        match number {
            0 => Input::read(io::stdin().lock(), place, name),
            _ => Input::read(file.map_err(at(&name))?, place, name),
        }
    }
}

fn from_hex(digits: &[u8]) -> Result<Vec<u8>, Failure> {
    let digit = |&byte: &u8| {
        let wrong = || {
            let shown = byte.escape_ascii();
            Failure::Usage(format!("hex: `{shown}` is no hexadecimal digit"))
        };
        char::from(byte).to_digit(16).ok_or_else(wrong)
    };
    let values: Vec<u32> = digits.iter().map(digit).collect::<Result<_, _>>()?;
    if !values.len().is_multiple_of(2) {
        let text = "hex: two digits make a byte, one is missing";
        return Err(Failure::Usage(text.into()));
    }
    let bytes = values.chunks(2).map(|pair| (16 * pair[0] + pair[1]) as u8);
    Ok(bytes.collect())
}

/// Bytes as hexadecimal digits.
pub fn to_hex(bytes: &[u8]) -> String {
    bytes.iter().map(|byte| format!("{byte:02x}")).collect()
}

#[cfg(test)]
mod tests {
    use super::*;

    #[test]
    fn hex_goes_both_ways() {
        assert_eq!(from_hex(b"00fFa1").unwrap(), [0, 0xff, 0xa1]);
        assert_eq!(from_hex(b"").unwrap(), []);
        assert_eq!(to_hex(&[0, 0xff, 0xa1]), "00ffa1");
        for wrong in ["1", "0x", "g0", "é0", "0 0"] {
            let answer = from_hex(wrong.as_bytes());
            assert!(matches!(answer, Err(Failure::Usage(_))), "{wrong}");
        }
    }
}
