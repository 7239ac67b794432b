//! Random statements.

use super::{ones, Asked, Condition, Number, Shown, Value, SIGNS};
use tests::random::Random;

/// Makes statements.
struct Maker<'a> {
    random: &'a mut Random,
    asked: Asked,
    used: Vec<bool>,
}

impl Maker<'_> {
    fn constant(&mut self) -> u128 {
        let random = &mut *self.random;
        let widest = self.asked.widths[random.below(self.asked.widths.len())];
        let any = u128::from(random.word()) << 64 | u128::from(random.word());
        match random.below(6) {
            0 => 0,
            1 => 1,
            2 => ones(widest),
            3 => 1 << random.below(widest as usize),
            _ => any & ones(widest),
        }
    }

    fn number(&mut self, depth: usize) -> Number {
        let fields = self.asked.widths.len();
        match self.random.below(if depth == 0 { 5 } else { 8 }) {
            0 => Number::Constant(self.constant()),
            1 => self.named(true).map_or(Number::Field(0), Number::Named),
            2..=4 => Number::Field(self.random.below(fields)),
            _ => {
                let count = self.random.from_to(2, 4);
                Number::Sum((0..count).map(|_| self.number(depth - 1)).collect())
            }
        }
    }

    /// A name that has a meaning, of this kind.
    fn named(&mut self, is_number: bool) -> Option<usize> {
        let values = self.asked.values.iter().enumerate();
        let fitting = values.filter(|(_, value)| matches!(value, Value::Number(_)) == is_number);
        let names: Vec<usize> = fitting.map(|(name, _)| name).collect();
        if names.is_empty() {
            return None;
        }
        let name = self.random.pick(&names);
        self.used[name] = true;
        Some(name)
    }

    fn ranges(&mut self) -> Vec<(u128, u128)> {
        let count = self.random.from_to(1, 5);
        let mut range = || {
            let low = self.constant();
            match self.random.below(3) {
                0 => (low, low.max(self.constant())),
                1 => (low, low.saturating_add(self.random.below(4) as u128)),
                _ => (low, low),
            }
        };
        (0..count).map(|_| range()).collect()
    }

    fn condition(&mut self, depth: usize) -> Condition {
        let list = |maker: &mut Maker| {
            let count = maker.random.from_to(2, 4);
            (0..count).map(|_| maker.condition(depth - 1)).collect()
        };
        match self.random.below(if depth == 0 { 6 } else { 10 }) {
            0 => match self.named(false) {
                Some(name) => Condition::Named(name),
                None => Condition::Compare(Number::Field(0), ">=", self.number(0)),
            },
            1 => {
                let is_in = !self.random.once_in(3);
                Condition::In(self.number(1), is_in, self.ranges())
            }
            2..=5 => {
                let sign = self.random.pick(&SIGNS);
                Condition::Compare(self.number(2), sign, self.number(2))
            }
            6 => Condition::Not(Box::new(self.condition(depth - 1))),
            7 | 8 => Condition::And(list(self)),
            _ => Condition::Or(list(self)),
        }
    }

    fn make(mut self) -> Asked {
        for _ in 0..self.random.from_to(1, 4) {
            let value = match self.random.once_in(3) {
                true => Value::Number(self.number(2)),
                false => Value::Condition(self.condition(3)),
            };
            self.asked.values.push(value);
            self.used.push(false);
        }
        // What is not used must be shown; some of the rest is.
        for name in 0..self.asked.values.len() {
            if !self.used[name] || self.random.once_in(2) {
                self.asked.shown.push(Shown::Value(name));
            }
        }
        if self.random.once_in(2) {
            let field = self.random.below(self.asked.widths.len());
            self.asked.shown.push(Shown::Field(field));
        }
        self.asked
    }
}

/// A random statement.
pub fn asked(random: &mut Random) -> Asked {
    let fields = random.from_to(1, 5);
    let width = |random: &mut Random| match random.below(8) {
        0 => random.from_to(1, 128) as u32,
        1 => random.from_to(1, 32) as u32,
        _ => random.from_to(1, 6) as u32,
    };
    let asked = Asked {
        widths: (0..fields).map(|_| width(random)).collect(),
        values: vec![],
        shown: vec![],
    };
    let used = vec![];
    Maker {
        random,
        asked,
        used,
    }
    .make()
}
