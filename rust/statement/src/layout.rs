//! Named values in the bits of a row or of a y, one behind the other, lowest bit first.

use crate::fault::{Fault, Place};
use crate::lexer::{tokens, Token};
use crate::slips::{nearest, Text};
use std::fmt;

/// What a value is.
#[derive(Clone, Copy, Debug, PartialEq, Eq)]
pub enum Shape {
    Number,
    /// Of one bit.
    Condition,
}

/// The place of a named value.
#[derive(Clone, Debug, PartialEq, Eq)]
pub struct Slot {
    pub name: String,
    pub shape: Shape,
    /// Its bits.
    pub width: u32,
}

impl Slot {
    /// As a `row` has it.
    pub(crate) fn declaration(&self) -> String {
        format!("{}: {}", self.name, self.width)
    }

    /// The greatest number that it can hold.
    fn greatest(&self) -> u128 {
        u128::MAX >> (u128::BITS - self.width)
    }

    /// The number that a token stands for here.
    fn number(&self, token: &Token) -> Result<u128, String> {
        let (greatest, name) = (self.greatest(), &self.name);
        match (self.shape, token) {
            (Shape::Condition, Token::Name(word)) if word == "yes" => Ok(1),
            (Shape::Condition, Token::Name(word)) if word == "no" => Ok(0),
            (_, Token::Number(number)) if *number <= greatest => Ok(*number),
            (Shape::Condition, _) => Err(format!("`{name}` is yes or no, not {token}")),
            (Shape::Number, Token::Number(_)) => {
                let bits = match self.width {
                    1 => "1 bit".into(),
                    width => format!("{width} bits"),
                };
                Err(format!("`{name}` is at most {greatest}: it has {bits}"))
            }
            (Shape::Number, _) => Err(format!("`{name}` is a number, not {token}")),
        }
    }
}

/// A value.
#[derive(Clone, Copy, Debug, PartialEq, Eq)]
pub enum Given {
    Number(u128),
    Condition(bool),
}

/// A number in decimal digits, a condition as `yes` or `no`.
impl fmt::Display for Given {
    fn fmt(&self, f: &mut fmt::Formatter) -> fmt::Result {
        match self {
            Given::Number(number) => number.fmt(f),
            Given::Condition(true) => f.write_str("yes"),
            Given::Condition(false) => f.write_str("no"),
        }
    }
}

/// How values are written.
const FORM: &str = "a value stands behind `=`, as `order=250`";

/// Named values, one behind the other.
#[derive(Clone, Debug, Default, PartialEq, Eq)]
pub struct Layout(Vec<Slot>);

impl Layout {
    pub(crate) fn push(&mut self, slot: Slot) {
        self.0.push(slot);
    }

    pub fn slots(&self) -> &[Slot] {
        &self.0
    }

    /// As a `row` has them: `on_hand: 16, order: 16`.
    pub fn declaration(&self) -> String {
        let fields: Vec<String> = self.0.iter().map(Slot::declaration).collect();
        fields.join(", ")
    }

    /// How many bits all have together.
    pub fn bits(&self) -> u32 {
        self.0.iter().map(|slot| slot.width).sum()
    }

    /// Packs the values of a text: for each name once `name=value`, in any order, with
    /// white space or a comma between two, and `#` before a comment.
    pub fn pack(&self, text: &[u8]) -> Result<Vec<u8>, Fault> {
        let (values, end) = self.values(text)?;
        let mut bytes = vec![0; self.bits().div_ceil(8) as usize];
        for ((slot, first), value) in self.placed().zip(values) {
            let missing = || end.fault(format!("`{}` has no value", slot.name));
            let value = value.ok_or_else(missing)?;
            for (number_bit, bit) in (first..).take(slot.width as usize).enumerate() {
                bytes[bit / 8] |= ((value >> number_bit & 1) as u8) << (bit % 8);
            }
        }
        Ok(bytes)
    }

    /// The slots, each with its first bit.
    fn placed(&self) -> impl Iterator<Item = (&Slot, usize)> {
        self.0.iter().scan(0, |end, slot| {
            let first = *end;
            *end += slot.width as usize;
            Some((slot, first))
        })
    }

    /// The value that a text has for each slot, and the place of its end.
    fn values(&self, text: &[u8]) -> Result<(Vec<Option<u128>>, Place), Fault> {
        let tokens = tokens(text, Text::Values)?;
        let mut values = vec![None; self.0.len()];
        let mut rest = tokens.iter();
        let mut next = || rest.next().expect("the end is the last");
        loop {
            let (token, place) = next();
            let name = match token {
                Token::End => return Ok((values, *place)),
                Token::Fixed(",") => continue,
                Token::Name(name) => name,
                _ => {
                    let text = format!("a name is expected, not {token}: {FORM}");
                    return Err(place.fault(text));
                }
            };
            let found = self.0.iter().position(|slot| slot.name == *name);
            let found = found.ok_or_else(|| place.fault(self.unknown(name)))?;
            if values[found].is_some() {
                return Err(place.fault(format!("`{name}` has a value already")));
            }
            let (sign, sign_place) = next();
            if *sign != Token::Fixed("=") {
                let text = format!("`=` is expected, not {sign}: {FORM}");
                return Err(sign_place.fault(text));
            }
            let (value, value_place) = next();
            let number = self.0[found].number(value);
            values[found] = Some(number.map_err(|text| value_place.fault(text))?);
        }
    }

    fn unknown(&self, name: &str) -> String {
        let names: Vec<&str> = self.0.iter().map(|slot| slot.name.as_str()).collect();
        let meant = nearest(name, names.iter().copied());
        let meant = meant.map_or(String::new(), |meant| format!(": is `{meant}` meant?"));
        format!("`{name}` is none of {}{meant}", names.join(", "))
    }

    /// The values in packed bytes, of which there must be enough for all bits.
    pub fn unpack(&self, bytes: &[u8]) -> Vec<(&str, Given)> {
        let bit = |bit: usize| u128::from(bytes[bit / 8] >> (bit % 8) & 1);
        let value = |(slot, first): (&'_ Slot, usize)| {
            let bits = (first..).take(slot.width as usize).enumerate();
            let number = bits.fold(0, |number, (place, at)| number | bit(at) << place);
            match slot.shape {
                Shape::Number => Given::Number(number),
                Shape::Condition => Given::Condition(number == 1),
            }
        };
        let names = self.0.iter().map(|slot| slot.name.as_str());
        names.zip(self.placed().map(value)).collect()
    }
}
