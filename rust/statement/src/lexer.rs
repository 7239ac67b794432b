//! A text as words, numbers and signs.

use crate::fault::{Fault, Place};
use crate::slips::{self, Text};
use std::fmt;

/// The words that are no names.
pub const WORDS: [&str; 8] = ["row", "let", "show", "and", "or", "not", "in", "to"];

/// The signs; the longer ones are tried first.
const SIGNS: [&str; 12] = [
    "==", "!=", ">=", "<=", ">", "<", "=", "+", ":", ",", "(", ")",
];

#[derive(Clone, Debug, PartialEq, Eq)]
pub enum Token {
    Name(String),
    Number(u128),
    /// One of the words and signs.
    Fixed(&'static str),
    End,
}

impl fmt::Display for Token {
    fn fmt(&self, f: &mut fmt::Formatter) -> fmt::Result {
        match self {
            Token::Name(name) => write!(f, "`{name}`"),
            Token::Number(number) => write!(f, "`{number}`"),
            Token::Fixed(word) => write!(f, "`{word}`"),
            Token::End => f.write_str("the end of the text"),
        }
    }
}

/// The tokens of a text with their places, the end as the last one. White space
/// parts them, and `#` begins a comment, up to the line's end.
pub fn tokens(text: &[u8], kind: Text) -> Result<Vec<(Token, Place)>, Fault> {
    let mut rest = Rest {
        text: utf8(text)?,
        place: Place::START,
        open: 0,
    };
    let mut tokens: Vec<(Token, Place)> = vec![];
    loop {
        rest.skip()?;
        let place = rest.place;
        let Some(token) = rest.token()? else {
            let before = tokens.iter().rev().map(|(token, _)| token);
            return Err(place.fault(slips::stray(kind, before, rest.text)));
        };
        let is_last = token == Token::End;
        tokens.push((token, place));
        if is_last {
            return Ok(tokens);
        }
    }
}

/// The text, if its bytes are one.
fn utf8(text: &[u8]) -> Result<&str, Fault> {
    std::str::from_utf8(text).map_err(|error| {
        let before = String::from_utf8_lossy(&text[..error.valid_up_to()]);
        let place = before.chars().fold(Place::START, after);
        place.fault("a byte that is no UTF-8: save the text as UTF-8")
    })
}

/// The place behind a character.
fn after(place: Place, char: char) -> Place {
    match char {
        '\n' => Place {
            line: place.line + 1,
            column: 1,
        },
        _ => Place {
            column: place.column + 1,
            ..place
        },
    }
}

/// What is left of a text.
struct Rest<'a> {
    text: &'a str,
    place: Place,
    /// The brackets that are open here.
    open: usize,
}

impl<'a> Rest<'a> {
    /// Takes the characters for which this holds, up to the first other one.
    fn take_while(&mut self, holds: impl Fn(char) -> bool) -> &'a str {
        let end = self.text.find(|char| !holds(char));
        self.take(end.unwrap_or(self.text.len()))
    }

    fn take(&mut self, len: usize) -> &'a str {
        let (taken, text) = self.text.split_at(len);
        self.place = taken.chars().fold(self.place, after);
        self.text = text;
        taken
    }

    /// Skips white space and comments.
    fn skip(&mut self) -> Result<(), Fault> {
        let mut in_comment = false;
        while let Some(char) = self.text.chars().next() {
            let ends_line = self.text.starts_with('\n') || self.text.starts_with("\r\n");
            in_comment = (in_comment || char == '#') && !ends_line;
            if !ends_line && is_unseen(char) {
                return Err(self.place.fault(unseen(char)));
            }
            if !in_comment && !ends_line && char != ' ' && char != '\t' {
                return Ok(());
            }
            self.take(char.len_utf8());
        }
        Ok(())
    }

    /// The next token, if one begins here.
    fn token(&mut self) -> Result<Option<Token>, Fault> {
        let place = self.place;
        let is_sign = |sign: &&&str| self.text.starts_with(**sign);
        if let Some(sign) = SIGNS.iter().find(is_sign) {
            self.open += usize::from(*sign == "(");
            self.open = self.open.saturating_sub(usize::from(*sign == ")"));
            self.take(sign.len());
            return Ok(Some(Token::Fixed(sign)));
        }
        if self.text.is_empty() {
            return Ok(Some(Token::End));
        }
        let text = self.text;
        let word = self.take_while(|char| char.is_ascii_alphanumeric() || char == '_');
        match word.bytes().next() {
            None => Ok(None),
            Some(b'0'..=b'9') => {
                let slip = slips::number(text, self.open > 0);
                let number = slip.map_or_else(|| number(word), Err);
                number.map(Some).map_err(|text| place.fault(text))
            }
            Some(_) => Ok(Some(named(word))),
        }
    }
}

/// A character that a reader does not see, or that moves what is seen: the reader of
/// a statement is to see what is asked.
fn is_unseen(char: char) -> bool {
    let moves = matches!(char, '\u{ad}' | '\u{61c}' | '\u{200b}'..='\u{200f}' | '\u{2028}'..='\u{202e}')
        || matches!(char, '\u{2060}'..='\u{206f}' | '\u{feff}');
    moves || char.is_control() && char != '\t'
}

/// What to say of such a character.
fn unseen(char: char) -> String {
    let advice = match char {
        '\u{feff}' => "a byte order mark: save the text as UTF-8 without it",
        '\r' => "a line's end of its own: write LF, or CR LF",
        _ => "take it out",
    };
    let code = u32::from(char);
    format!("a character that is not seen, U+{code:04X}, {advice}")
}

fn named(word: &str) -> Token {
    match WORDS.into_iter().find(|known| *known == word) {
        Some(known) => Token::Fixed(known),
        None => Token::Name(word.into()),
    }
}

fn number(word: &str) -> Result<Token, String> {
    if !word.bytes().all(|byte| byte.is_ascii_digit()) {
        return Err(format!(
            "`{word}` begins with a digit and is no number: a number has digits alone, a name \
             begins with a letter"
        ));
    }
    if word.len() > 1 && word.starts_with('0') {
        let digits = word.trim_start_matches('0');
        let digits = if digits.is_empty() { "0" } else { digits };
        return Err(format!(
            "`{word}`: a number begins with no 0: write `{digits}`"
        ));
    }
    let too_large = |_| format!("`{word}` has more than 128 bits");
    word.parse().map(Token::Number).map_err(too_large)
}
