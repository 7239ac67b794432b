//! Statements as the tests know them: what they say in whole numbers, and what they cost in
//! the textbook.

mod making;
mod writing;

pub use making::asked;
pub use writing::written;

pub const SIGNS: [&str; 6] = ["<", "<=", ">", ">=", "==", "!="];

#[derive(Clone)]
pub enum Number {
    Field(usize),
    Constant(u128),
    Named(usize),
    Sum(Vec<Number>),
}

#[derive(Clone)]
pub enum Condition {
    Named(usize),
    Compare(Number, &'static str, Number),
    In(Number, bool, Vec<(u128, u128)>),
    Not(Box<Condition>),
    And(Vec<Condition>),
    Or(Vec<Condition>),
}

pub enum Value {
    Number(Number),
    Condition(Condition),
}

/// A statement: the widths of its fields, and what its names stand for.
pub struct Asked {
    pub widths: Vec<u32>,
    pub values: Vec<Value>,
    /// The names and fields that are shown, in order.
    pub shown: Vec<Shown>,
}

#[derive(Clone, Copy)]
pub enum Shown {
    Field(usize),
    Value(usize),
}

pub fn ones(width: u32) -> u128 {
    u128::MAX >> (128 - width)
}

pub fn bits_of(number: u128) -> u32 {
    128 - number.leading_zeros()
}

/// What the statement says, in whole numbers. None if a sum has more than 128 bits.
impl Asked {
    fn number(&self, number: &Number, row: &[u128]) -> Option<u128> {
        match number {
            Number::Field(field) => Some(row[*field]),
            Number::Constant(constant) => Some(*constant),
            Number::Named(name) => match &self.values[*name] {
                Value::Number(number) => self.number(number, row),
                Value::Condition(_) => unreachable!("a number"),
            },
            Number::Sum(terms) => terms
                .iter()
                .try_fold(0_u128, |sum, term| sum.checked_add(self.number(term, row)?)),
        }
    }

    fn condition(&self, condition: &Condition, row: &[u128]) -> bool {
        let number = |number| self.number(number, row).expect("at most 128 bits");
        match condition {
            Condition::Named(name) => match &self.values[*name] {
                Value::Condition(condition) => self.condition(condition, row),
                Value::Number(_) => unreachable!("a condition"),
            },
            Condition::Compare(left, sign, right) => {
                let (left, right) = (number(left), number(right));
                match *sign {
                    "<" => left < right,
                    "<=" => left <= right,
                    ">" => left > right,
                    ">=" => left >= right,
                    "==" => left == right,
                    "!=" => left != right,
                    other => unreachable!("{other}"),
                }
            }
            Condition::In(value, is_in, ranges) => {
                let value = number(value);
                let mut ranges = ranges.iter();
                ranges.any(|(low, high)| (*low..=*high).contains(&value)) == *is_in
            }
            Condition::Not(condition) => !self.condition(condition, row),
            Condition::And(list) => list.iter().all(|one| self.condition(one, row)),
            Condition::Or(list) => list.iter().any(|one| self.condition(one, row)),
        }
    }

    /// The greatest that a number can be: no sum grows smaller with a field.
    fn greatest(&self, number: &Number) -> Option<u128> {
        let row: Vec<u128> = self.widths.iter().map(|width| ones(*width)).collect();
        self.number(number, &row)
    }

    /// Does every sum have at most 128 bits, also in parts?
    pub fn fits(&self) -> bool {
        self.values.iter().all(|value| match value {
            Value::Number(number) => self.greatest(number).is_some(),
            Value::Condition(condition) => self.condition_fits(condition),
        })
    }

    fn condition_fits(&self, condition: &Condition) -> bool {
        match condition {
            Condition::Named(_) => true,
            Condition::Compare(left, _, right) => {
                self.greatest(left).is_some() && self.greatest(right).is_some()
            }
            Condition::In(number, _, _) => self.greatest(number).is_some(),
            Condition::Not(condition) => self.condition_fits(condition),
            Condition::And(list) | Condition::Or(list) => {
                list.iter().all(|one| self.condition_fits(one))
            }
        }
    }

    /// What is shown for a row: each number with its bits.
    pub fn outputs(&self, row: &[u128]) -> Vec<(u128, u32)> {
        let one = |shown: &Shown| match *shown {
            Shown::Field(field) => (row[field], self.widths[field]),
            Shown::Value(name) => match &self.values[name] {
                Value::Condition(condition) => (self.condition(condition, row).into(), 1),
                Value::Number(number) => {
                    let greatest = self.greatest(number).expect("at most 128 bits");
                    let value = self.number(number, row).expect("at most 128 bits");
                    (value, bits_of(greatest).max(1))
                }
            },
        };
        self.shown.iter().map(one).collect()
    }

    /// The textbook's ANDs: one for each bit of a sum of two and of a comparison, one
    /// for each bit but one of an equality, one for each `and` and `or`.
    pub fn ands(&self) -> u32 {
        let value = |value: &Value| match value {
            Value::Number(number) => self.number_ands(number),
            Value::Condition(condition) => self.condition_ands(condition),
        };
        self.values.iter().map(value).sum()
    }

    fn width(&self, number: &Number) -> u32 {
        bits_of(self.greatest(number).expect("at most 128 bits"))
    }

    fn number_ands(&self, number: &Number) -> u32 {
        let Number::Sum(terms) = number else {
            return 0;
        };
        let of_terms: u32 = terms.iter().map(|term| self.number_ands(term)).sum();
        let of_sums = (1..terms.len()).map(|count| {
            let before = self.width(&Number::Sum(terms[..count].to_vec()));
            before.max(self.width(&terms[count]))
        });
        of_terms + of_sums.sum::<u32>()
    }

    fn condition_ands(&self, condition: &Condition) -> u32 {
        let all = |list: &[Condition]| {
            let of_list: u32 = list.iter().map(|one| self.condition_ands(one)).sum();
            of_list + list.len() as u32 - 1
        };
        match condition {
            Condition::Named(_) => 0,
            Condition::Compare(left, sign, right) => {
                let width = self.width(left).max(self.width(right));
                let own = match *sign {
                    "==" | "!=" => width.saturating_sub(1),
                    _ => width,
                };
                own + self.number_ands(left) + self.number_ands(right)
            }
            Condition::In(number, _, ranges) => {
                let less = self.width(number).saturating_sub(1);
                let one = |(low, high): &(u128, u128)| if low == high { less } else { 2 * less };
                self.number_ands(number) + ranges.iter().map(one).sum::<u32>()
            }
            Condition::Not(condition) => self.condition_ands(condition),
            Condition::And(list) | Condition::Or(list) => all(list),
        }
    }
}
