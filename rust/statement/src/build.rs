//! From a tree to a circuit.

use crate::fault::{Fault, Place};
use crate::gates::{Bit, Gates, NO};
use crate::layout::{Layout, Shape, Slot};
use crate::numbers::Number;
use crate::parser::parse;
use crate::slips::nearest;
use crate::tree::{self, Comparison, Field, Kind, Name, Part};
use std::collections::HashMap;
use wivulameno::limits::{MAX_GATES, MAX_INPUTS, MAX_OUTPUTS};

/// A field has 1 to so many bits, and a sum at most so many.
pub const MAX_WIDTH: u32 = u128::BITS;

/// What a statement gives.
#[derive(Debug)]
pub struct Built {
    /// The circuit file.
    pub circuit: Vec<u8>,
    /// The fields of the row, which is the witness.
    pub row: Layout,
    /// What is shown: the parts of y.
    pub y: Layout,
    /// Comparisons whose answer is the same for every row.
    pub notes: Vec<Fault>,
}

/// Builds the circuit of a statement. `docs/statements.md` has the form of the text.
pub fn build(text: &[u8]) -> Result<Built, Fault> {
    let (parts, end) = parse(text)?;
    let mut builder = Builder::for_row(row_of(&parts)?);
    builder.all = parts.iter().flat_map(names_of).cloned().collect();
    for part in &parts {
        builder.part(part)?;
    }
    builder.end(end)
}

/// The fields of all `row` parts: the wires of gates come behind them.
pub(crate) fn row_of(parts: &[Part]) -> Result<Layout, Fault> {
    let mut row = Layout::default();
    let fields = parts.iter().flat_map(|part| match part {
        Part::Row(fields) => fields.as_slice(),
        _ => &[],
    });
    for field in fields {
        row.push(slot_of(field)?);
        let bits = row.bits();
        if bits > MAX_INPUTS {
            let text = format!("the row has {bits} bits with this field, at most {MAX_INPUTS}");
            return Err(field.name.place.fault(text));
        }
    }
    Ok(row)
}

/// The names to which a part gives a meaning.
fn names_of(part: &Part) -> Vec<&Name> {
    match part {
        Part::Row(fields) => fields.iter().map(|field| &field.name).collect(),
        Part::Let(name, _) => vec![name],
        Part::Show(list) => {
            let named = list.iter().filter(|(_, value)| value.is_some());
            named.map(|(name, _)| name).collect()
        }
    }
}

fn slot_of(field: &Field) -> Result<Slot, Fault> {
    let width = u32::try_from(field.width).ok();
    let wrong = || {
        let text = format!("a field has 1 to {MAX_WIDTH} bits");
        field.width_place.fault(text)
    };
    let legal = width.filter(|width| (1..=MAX_WIDTH).contains(width));
    Ok(Slot {
        name: field.name.text.clone(),
        shape: Shape::Number,
        width: legal.ok_or_else(wrong)?,
    })
}

/// Does one place come before another?
fn is_before(one: Place, other: Place) -> bool {
    (one.line, one.column) < (other.line, other.column)
}

/// Is what is shown under a name something else than the name itself?
fn is_no_copy(name: &Name, value: &tree::Value) -> Result<(), Fault> {
    let text = &name.text;
    match &value.kind {
        Kind::Name(shown) if shown == text => Err(name.place.fault(format!(
            "`{text}` is shown by its name alone: `show {text}`"
        ))),
        _ => Ok(()),
    }
}

#[derive(Clone)]
enum Value {
    Number(Number),
    Condition(Bit),
}

/// What a name stands for.
struct Named {
    value: Value,
    place: Place,
    /// Of a `let`: is it used?
    is_used: bool,
    is_shown: bool,
}

struct Builder {
    gates: Gates,
    names: HashMap<String, Named>,
    /// The names that get a meaning anywhere, in their order.
    all: Vec<Name>,
    row: Layout,
    /// The bits of the fields that have a meaning so far.
    fields: u32,
    y: Layout,
    outputs: Vec<u32>,
    notes: Vec<Fault>,
}

impl Builder {
    fn for_row(row: Layout) -> Builder {
        Builder {
            gates: Gates::new(row.bits()),
            names: HashMap::new(),
            all: vec![],
            row,
            fields: 0,
            y: Layout::default(),
            outputs: vec![],
            notes: vec![],
        }
    }

    fn part(&mut self, part: &Part) -> Result<(), Fault> {
        match part {
            Part::Row(fields) => fields.iter().try_for_each(|field| self.field(field)),
            Part::Let(name, value) => {
                let value = self.value(value)?;
                self.define(name, value, false)
            }
            Part::Show(list) => list.iter().try_for_each(|(name, value)| {
                if let Some(value) = value {
                    is_no_copy(name, value)?;
                    let value = self.value(value)?;
                    self.define(name, value, true)?;
                } else if !self.names.contains_key(&name.text) {
                    return Err(self.shows_nothing(name));
                }
                self.show(name)
            }),
        }
    }

    fn define(&mut self, name: &Name, value: Value, is_used: bool) -> Result<(), Fault> {
        if let Some(known) = self.names.get(&name.text) {
            let Place { line, column } = known.place;
            let text = format!("`{}` stands for something else", name.text);
            let text = format!("{text}, from line {line}, column {column}: take another name here");
            return Err(name.place.fault(text));
        }
        let named = Named {
            value,
            place: name.place,
            is_used,
            is_shown: false,
        };
        self.names.insert(name.text.clone(), named);
        Ok(())
    }

    fn named(&mut self, name: &str, place: Place) -> Result<&mut Named, Fault> {
        if !self.names.contains_key(name) {
            return Err(self.unknown(name, place));
        }
        let named = self.names.get_mut(name).expect("it is there");
        named.is_used = true;
        Ok(named)
    }

    /// The fault of a name without a meaning, with the name that is likely to be meant, or
    /// with those that there are.
    fn unknown(&self, name: &str, place: Place) -> Fault {
        let text = format!("`{name}` stands for nothing up to here");
        let is_behind = |later: &&Name| later.text == name && is_before(place, later.place);
        let later = self.all.iter().find(is_behind);
        let meant = self.meant(name);
        place.fault(match (later, meant, self.listed()) {
            (Some(later), ..) => {
                let line = later.place.line;
                format!("{text}: line {line} says what it is, and has to come before")
            }
            _ if ["true", "false", "yes", "no"].contains(&name) => {
                format!("{text}: a condition stands alone, as `a > 3` or `not a > 3`")
            }
            (_, Some(meant), _) => format!("{text}: is `{meant}` meant?"),
            (.., None) => text,
            (.., Some(names)) => format!("{text}: known are {names}"),
        })
    }

    /// The fault of a shown name without a meaning.
    fn shows_nothing(&self, name: &Name) -> Fault {
        let (text, place) = (&name.text, name.place);
        let is_later = self.all.iter().any(|later| later.text == *text);
        match self.meant(text) {
            None if !is_later => place.fault(format!(
                "`{text}` stands for nothing up to here: `show {text} = ..` says what it is"
            )),
            _ => self.unknown(text, place),
        }
    }

    /// The known names, in their order.
    fn known(&self) -> impl Iterator<Item = &str> {
        let names = self.all.iter().map(|name| name.text.as_str());
        names.filter(|name| self.names.contains_key(*name))
    }

    /// The first of the known names, and how many more there are.
    fn listed(&self) -> Option<String> {
        const MOST: usize = 12;
        let first: Vec<&str> = self.known().take(MOST).collect();
        let more = self.names.len().saturating_sub(MOST);
        let names = first.join(", ");
        match (first.is_empty(), more) {
            (true, _) => None,
            (false, 0) => Some(names),
            (false, more) => Some(format!("{names} and {more} more")),
        }
    }

    fn meant(&self, name: &str) -> Option<&str> {
        nearest(name, self.known())
    }

    fn field(&mut self, field: &Field) -> Result<(), Fault> {
        let end = self.fields + slot_of(field)?.width;
        let number = Number::of_wires(self.fields..end);
        self.fields = end;
        self.define(&field.name, Value::Number(number), true)
    }

    fn show(&mut self, name: &Name) -> Result<(), Fault> {
        let named = self.named(&name.text, name.place)?;
        if std::mem::replace(&mut named.is_shown, true) {
            return Err(name.place.fault(format!("`{}` is shown twice", name.text)));
        }
        let (shape, mut bits) = match named.value.clone() {
            Value::Condition(bit) => (Shape::Condition, vec![bit]),
            Value::Number(number) => (Shape::Number, number.bits),
        };
        if bits.is_empty() {
            bits.push(NO); // zero has a bit, too
        }
        self.y.push(Slot {
            name: name.text.clone(),
            shape,
            width: bits.len() as u32,
        });
        let shown = self.y.bits();
        if shown > MAX_OUTPUTS {
            let text = format!("{shown} bits are shown with this, at most {MAX_OUTPUTS}");
            return Err(name.place.fault(text));
        }
        for bit in bits {
            let wire = self.gates.wire(bit);
            self.outputs.push(wire);
        }
        self.has_room(name.place)
    }

    /// Is every gate built?
    fn has_room(&self, place: Place) -> Result<(), Fault> {
        match self.gates.is_full() {
            true => Err(place.fault(format!("more than {MAX_GATES} gates with this"))),
            false => Ok(()),
        }
    }

    fn end(self, end: Place) -> Result<Built, Fault> {
        if self.outputs.is_empty() {
            return Err(end.fault("nothing is shown: a statement has a `show`"));
        }
        if self.row.bits() == 0 {
            return Err(end.fault("there is no field: a statement has a `row`"));
        }
        let unused = self.names.iter().filter(|(_, named)| !named.is_used);
        let first = unused.min_by_key(|(_, named)| (named.place.line, named.place.column));
        if let Some((name, named)) = first {
            let text = format!("`{name}` is not used: show it, or take it out");
            return Err(named.place.fault(text));
        }
        Ok(Built {
            circuit: self.gates.file(&self.outputs),
            row: self.row,
            y: self.y,
            notes: self.notes,
        })
    }

    fn value(&mut self, value: &tree::Value) -> Result<Value, Fault> {
        let place = value.place;
        let built = match &value.kind {
            Kind::Number(number) => Value::Number(Number::constant(*number)),
            Kind::Name(name) => self.named(name, place)?.value.clone(),
            Kind::Sum(terms) => Value::Number(self.sum(terms, place)?),
            Kind::Compare(left, comparison, right) => {
                let [left, right] = [self.number(left)?, self.number(right)?];
                let answer = self.compare(&left, *comparison, &right);
                self.answered(answer, place)
            }
            Kind::In(number, ranges) => {
                let number = self.number(number)?;
                let answer = self.gates.within(&number, ranges);
                self.answered(answer, place)
            }
            Kind::Not(value) => Value::Condition(!self.condition(value)?),
            Kind::And(values) => self.joined(values, Gates::and)?,
            Kind::Or(values) => self.joined(values, Gates::or)?,
        };
        self.has_room(place)?;
        Ok(built)
    }

    fn number(&mut self, value: &tree::Value) -> Result<Number, Fault> {
        match self.value(value)? {
            Value::Number(number) => Ok(number),
            Value::Condition(_) => {
                let text = "this is a condition, where a number is expected";
                Err(value.place.fault(text))
            }
        }
    }

    fn condition(&mut self, value: &tree::Value) -> Result<Bit, Fault> {
        match self.value(value)? {
            Value::Condition(bit) => Ok(bit),
            Value::Number(_) => {
                let text = "this is a number, where a condition is expected: compare it";
                Err(value.place.fault(text))
            }
        }
    }

    fn sum(&mut self, terms: &[tree::Value], place: Place) -> Result<Number, Fault> {
        let terms: Result<_, _> = terms.iter().map(|term| self.number(term)).collect();
        let large = || place.fault(format!("this sum can have more than {MAX_WIDTH} bits"));
        self.gates.sum(terms?).ok_or_else(large)
    }

    fn compare(&mut self, left: &Number, comparison: Comparison, right: &Number) -> Bit {
        let gates = &mut self.gates;
        match comparison {
            Comparison::Less => gates.less(left, right),
            Comparison::AtLeast => !gates.less(left, right),
            Comparison::More => gates.less(right, left),
            Comparison::AtMost => !gates.less(right, left),
            Comparison::Equal => gates.equal(left, right),
            Comparison::Unequal => !gates.equal(left, right),
        }
    }

    /// The answer of a comparison, with a note if it is always the same.
    fn answered(&mut self, answer: Bit, place: Place) -> Value {
        if let Some(value) = answer.value() {
            let word = if value { "yes" } else { "no" };
            self.notes
                .push(place.fault(format!("this is {word} for every row")));
        }
        Value::Condition(answer)
    }

    fn joined(
        &mut self,
        values: &[tree::Value],
        join: fn(&mut Gates, Bit, Bit) -> Bit,
    ) -> Result<Value, Fault> {
        let mut values = values.iter();
        let first = values.next().expect("two or more");
        let mut joined = self.condition(first)?;
        for value in values {
            let next = self.condition(value)?;
            joined = join(&mut self.gates, joined, next);
        }
        Ok(Value::Condition(joined))
    }
}
