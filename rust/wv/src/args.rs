//! The arguments of a command: places, options with a value, flags.

use crate::commands::Command;
use crate::failure::Failure;
use crate::input::{Input, Inputs};
use crate::names::shown;
use std::ffi::{OsStr, OsString};
use std::path::{Path, PathBuf};
use std::str::FromStr;
use std::time::Duration;

/// The words behind a command's name.
pub struct Args {
    command: &'static Command,
    places: Vec<OsString>,
    options: Vec<(&'static str, OsString)>,
    flags: Vec<&'static str>,
    inputs: Inputs,
    torn: Vec<Torn>,
}

/// What is typed, and the places right behind it: they may be its other words, if it
/// is not quoted.
struct Torn {
    /// `--message ` before what is typed; empty before a place.
    option: String,
    typed: String,
    words: Vec<OsString>,
}

impl Torn {
    /// If the word is typed bytes, or should be; other words can follow. A message that
    /// is no file is one.
    fn of(option: &str, word: &OsStr) -> Option<Torn> {
        let bytes = word.as_encoded_bytes();
        let is_typed = bytes.starts_with(b"text:") || bytes.starts_with(b"hex:");
        let is_open = bytes == b"-" || bytes.starts_with(b"fd:");
        let is_text = option == "--message " && !is_open && !Path::new(word).exists();
        (is_typed || is_text).then(|| Torn {
            option: option.into(),
            typed: shown(word),
            words: vec![],
        })
    }

    /// Is one of the words behind it no file, and are there enough places without them?
    fn is_likely(&self, given: usize, needed: usize) -> bool {
        let is_file = |word: &OsString| Path::new(word).exists();
        given - self.words.len() >= needed && !self.words.iter().all(is_file)
    }

    /// What to do if the words behind it are a part of it.
    fn advice(&self) -> String {
        let Torn { option, typed, .. } = self;
        let words: Vec<String> = self.words.iter().map(shown).collect();
        let (rule, whole) = match typed.split_once(':') {
            Some(("hex", _)) => {
                let whole = format!("{typed}{}", words.concat());
                ("hexadecimal digits stand together", whole)
            }
            Some(("text", _)) => {
                let whole = format!("'{typed} {}'", words.join(" "));
                ("a text with spaces in it is quoted", whole)
            }
            _ => {
                let whole = format!("'text:{typed} {}'", words.join(" "));
                (
                    "a text is typed behind `text:`, and quoted if it has spaces",
                    whole,
                )
            }
        };
        let first = &words[0];
        format!("`{first}` stands alone behind `{option}{typed}`: {rule}, as in {option}{whole}")
    }
}

impl Args {
    /// Sorts the words. What follows `--` are places.
    pub fn parse(command: &'static Command, words: Vec<OsString>) -> Result<Args, Failure> {
        let mut args = Args {
            command,
            places: vec![],
            options: vec![],
            flags: vec![],
            inputs: Inputs::default(),
            torn: vec![],
        };
        let mut words = words.into_iter();
        let mut is_behind = false;
        while let Some(word) = words.next() {
            if word == "--" {
                args.places.extend(words.by_ref());
            } else if word != "-" && word.as_encoded_bytes().starts_with(b"-") {
                is_behind = args.take_option(&word, &mut words)?;
            } else {
                is_behind = args.take_place(word, is_behind);
            }
        }
        args.count_places()?;
        Ok(args)
    }

    /// Are there as many places as the command takes?
    fn count_places(&self) -> Result<(), Failure> {
        let Command { places, times, .. } = *self.command;
        let given = self.places.len();
        let (most, is_whole) = (places * times, given.is_multiple_of(places.max(1)));
        if places <= given && given <= most && is_whole {
            return Ok(());
        }
        let wrong = match self.places.get(most) {
            Some(word) => {
                let lacks = |option: &&str| {
                    self.command.options.contains(option) && self.option(option).is_none()
                };
                let advice = match ["log", "out"].into_iter().find(|option| lacks(option)) {
                    Some("log") => ": the log stands behind --log",
                    Some(_) => ": an output stands behind --out",
                    None => "",
                };
                format!("`{}` is one argument too many{advice}", shown(word))
            }
            None => {
                let name = self.command.place_name(given % places);
                format!("an argument is missing: {name}")
            }
        };
        let torn = self.torn.iter().find(|torn| torn.is_likely(given, places));
        let wrong = torn.map_or(wrong, Torn::advice);
        Err(self.command.misused(&wrong))
    }

    /// Takes a place; `is_behind` what is typed, or its words. Can the next one be a
    /// word of it, too?
    fn take_place(&mut self, word: OsString, is_behind: bool) -> bool {
        self.places.push(word.clone());
        match Torn::of("", &word) {
            Some(torn) => {
                self.torn.push(torn);
                return true;
            }
            None if is_behind => {
                let torn = self.torn.last_mut();
                torn.expect("what it is behind").words.push(word);
            }
            None => {}
        }
        is_behind
    }

    /// Takes an option with its value. Is this typed?
    fn take_option(
        &mut self,
        word: &OsStr,
        rest: &mut impl Iterator<Item = OsString>,
    ) -> Result<bool, Failure> {
        let command = self.command;
        let (word, value) = split(word);
        let name = shown(word);
        let is_it = |known: &&&'static str| name.strip_prefix("--") == Some(**known);
        if let Some(flag) = command.flags.iter().find(is_it) {
            self.flags.push(flag);
            return match value {
                Some(_) => Err(command.misused(&format!("`{name}` takes no value"))),
                None => Ok(false),
            };
        }
        let Some(option) = command.options.iter().find(is_it) else {
            return Err(command.misused(&format!("no option `{name}`{}", command.has())));
        };
        let next = || self.next_value(option, rest.next());
        let value = value.map_or_else(next, |value| Ok(value.to_os_string()))?;
        if self.option(option).is_some() && !command.repeated.contains(option) {
            return Err(command.misused(&format!("`{name}` stands there twice")));
        }
        let torn = Torn::of(&format!("{name} "), &value);
        let is_typed = torn.is_some();
        self.torn.extend(torn);
        self.options.push((option, value));
        Ok(is_typed)
    }

    /// The word behind an option, which is its value and not another option.
    fn next_value(
        &self,
        option: &'static str,
        word: Option<OsString>,
    ) -> Result<OsString, Failure> {
        let is_value = |word: &OsString| !word.as_encoded_bytes().starts_with(b"--");
        let expected = self.command.expected(option);
        let wrong = match word {
            Some(word) if is_value(&word) => return Ok(word),
            Some(word) => {
                let word = shown(word);
                format!(
                    "`--{option}` needs a value, and `{word}` is an option: {expected}; a value \
                     that begins so is given as --{option}={word}"
                )
            }
            None => format!("`--{option}` needs a value: {expected}"),
        };
        Err(self.command.misused(&wrong))
    }

    /// The argument at this place, from 0.
    pub fn place(&self, place: usize) -> &OsStr {
        &self.places[place]
    }

    /// All arguments without a name.
    pub fn places(&self) -> &[OsString] {
        &self.places
    }

    /// Is this flag there?
    pub fn flag(&self, name: &str) -> bool {
        self.flags.contains(&name)
    }

    /// The values of an option, in their order.
    pub fn values(&self, name: &str) -> Vec<&OsStr> {
        let options = self.options.iter();
        let named = options.filter(|(known, _)| *known == name);
        named.map(|(_, value)| value.as_os_str()).collect()
    }

    /// The value of an option, if it is there.
    pub fn option(&self, name: &str) -> Option<&OsStr> {
        self.values(name).first().copied()
    }

    /// The value of an option that has to be there.
    pub fn needed(&self, name: &str) -> Result<&OsStr, Failure> {
        let missing = || {
            let expected = self.command.expected(name);
            let text = format!("`--{name}` is needed: {expected}");
            self.command.misused(&text)
        };
        self.option(name).ok_or_else(missing)
    }

    /// A whole number, if the option is there.
    pub fn number<T: FromStr>(&self, name: &str) -> Result<Option<T>, Failure> {
        self.parsed(name, "a whole number", |digits| {
            let all_digits = digits.bytes().all(|byte| byte.is_ascii_digit());
            digits.parse().ok().filter(|_| all_digits)
        })
    }

    /// A decimal number of 0 or more, if the option is there.
    pub fn decimal(&self, name: &str) -> Result<Option<f64>, Failure> {
        self.parsed(name, "a number of 0 or more", decimal)
    }

    /// A time in seconds; none if the option is not there.
    pub fn seconds(&self, name: &str) -> Result<Duration, Failure> {
        let time = |digits: &str| Duration::try_from_secs_f64(decimal(digits)?).ok();
        let wait = self.parsed(name, "a number of seconds, 0 or more", time)?;
        Ok(wait.unwrap_or_default())
    }

    fn parsed<T>(
        &self,
        name: &str,
        what: &str,
        parse: impl Fn(&str) -> Option<T>,
    ) -> Result<Option<T>, Failure> {
        let Some(value) = self.option(name) else {
            return Ok(None);
        };
        let wrong = || Failure::Usage(format!("--{name} {}: this is not {what}", shown(value)));
        let parsed = value.to_str().and_then(parse);
        parsed.ok_or_else(wrong).map(Some)
    }

    /// The bytes that an argument stands for.
    pub fn input(&self, value: &OsStr) -> Result<Input, Failure> {
        let read = self.inputs.get(value);
        let (given, needed) = (self.places.len(), self.command.places);
        let is_word = |torn: &&Torn| {
            torn.is_likely(given, needed) && torn.words.iter().any(|word| word == value)
        };
        match self.torn.iter().find(is_word) {
            Some(torn) if read.is_err() => Err(self.command.misused(&torn.advice())),
            _ => read,
        }
    }

    /// The bytes that a secret option stands for, if it is there.
    pub fn secret(&self, name: &str) -> Result<Option<Input>, Failure> {
        let read = |value| self.inputs.secret(&format!("--{name}"), value);
        self.option(name).map(read).transpose()
    }
}

/// A file that has to have a name.
pub fn path(value: &OsStr) -> Result<PathBuf, Failure> {
    match value == "-" {
        true => Err(Failure::Usage("`-` cannot stand for this file".into())),
        false => Ok(value.into()),
    }
}

/// `--name=value` in its two parts; only the first `=` counts.
fn split(word: &OsStr) -> (&OsStr, Option<&OsStr>) {
    let bytes = word.as_encoded_bytes();
    let Some(place) = bytes.iter().position(|&byte| byte == b'=') else {
        return (word, None);
    };
    // SAFETY: the word is cut before and behind a character of ASCII.
    let part = |part| unsafe { OsStr::from_encoded_bytes_unchecked(part) };
    (part(&bytes[..place]), Some(part(&bytes[place + 1..])))
}

/// Digits, and a point with digits behind it if there is one: no sign, no
/// exponent, no `inf`.
fn decimal(text: &str) -> Option<f64> {
    let (whole, part) = text.split_once('.').unwrap_or((text, "0"));
    let digits = |text: &str| !text.is_empty() && text.bytes().all(|byte| byte.is_ascii_digit());
    let value: f64 = text.parse().ok()?;
    (digits(whole) && digits(part) && value.is_finite()).then_some(value)
}

#[cfg(test)]
mod tests {
    use super::*;

    #[test]
    fn decimal_numbers() {
        for (text, value) in [("0", 0.0), ("128", 128.0), ("7.4", 7.4), ("0.05", 0.05)] {
            assert_eq!(decimal(text), Some(value));
        }
        let long = "9".repeat(400);
        for wrong in [
            "", ".", "1.", ".5", "-1", "+1", "1e3", "inf", "NaN", "nan", "1 ", "0x1", "1.2.3",
            &long,
        ] {
            assert_eq!(decimal(wrong), None, "{wrong}");
        }
    }

    #[test]
    fn options_with_their_value() {
        let word = OsStr::new("--out=a=b");
        assert_eq!(split(word), (OsStr::new("--out"), Some(OsStr::new("a=b"))));
        assert_eq!(split(OsStr::new("--raw")), (OsStr::new("--raw"), None));
        assert_eq!(split(OsStr::new("--out=")).1, Some(OsStr::new("")));
    }
}
