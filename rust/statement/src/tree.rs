//! A statement as it is written.

use crate::fault::Place;

/// A part of a statement.
pub enum Part {
    Row(Vec<Field>),
    Let(Name, Value),
    /// What is shown, and if it has no name yet what it is.
    Show(Vec<(Name, Option<Value>)>),
}

/// A name, where it stands.
#[derive(Clone)]
pub struct Name {
    pub text: String,
    pub place: Place,
}

/// A field of the row, with its bits.
pub struct Field {
    pub name: Name,
    pub width: u128,
    pub width_place: Place,
}

/// A number or a condition, and where it begins.
pub struct Value {
    pub place: Place,
    pub kind: Kind,
}

pub enum Kind {
    Number(u128),
    Name(String),
    Sum(Vec<Value>),
    Compare(Box<Value>, Comparison, Box<Value>),
    /// Is a number in one of these ranges, both ends included?
    In(Box<Value>, Vec<(u128, u128)>),
    Not(Box<Value>),
    And(Vec<Value>),
    Or(Vec<Value>),
}

#[derive(Clone, Copy)]
pub enum Comparison {
    Less,
    AtMost,
    More,
    AtLeast,
    Equal,
    Unequal,
}
