//! From tokens to a tree. `docs/statements.md` has the grammar.

use crate::fault::{Fault, Place};
use crate::lexer::{tokens, Token, WORDS};
use crate::slips::{self, Text};
use crate::tree::{Comparison, Field, Kind, Name, Part, Value};

/// So deep can brackets and `not` stand in each other.
pub const MAX_DEPTH: usize = 100;

const COMPARISONS: [(&str, Comparison); 6] = [
    ("<", Comparison::Less),
    ("<=", Comparison::AtMost),
    (">", Comparison::More),
    (">=", Comparison::AtLeast),
    ("==", Comparison::Equal),
    ("!=", Comparison::Unequal),
];

/// The parts of a statement, and the place of its end.
pub fn parse(text: &[u8]) -> Result<(Vec<Part>, Place), Fault> {
    let mut parser = Parser {
        tokens: tokens(text, Text::Statement)?,
        at: 0,
        depth: 0,
    };
    let mut parts = vec![];
    while *parser.next() != Token::End {
        parts.push(parser.part()?);
    }
    Ok((parts, parser.place()))
}

/// The fault with what to do.
fn advised(fault: Fault, advice: &str) -> Fault {
    fault.place.fault(format!("{}: {advice}", fault.text))
}

struct Parser {
    tokens: Vec<(Token, Place)>,
    at: usize,
    depth: usize,
}

type Parsed = Result<Value, Fault>;

impl Parser {
    fn next(&self) -> &Token {
        &self.tokens[self.at].0
    }

    fn place(&self) -> Place {
        self.tokens[self.at].1
    }

    /// Takes this word or sign, if it is the next one.
    fn take(&mut self, word: &str) -> bool {
        let is_next = matches!(self.next(), Token::Fixed(next) if *next == word);
        self.at += usize::from(is_next);
        is_next
    }

    fn need(&mut self, word: &str) -> Result<(), Fault> {
        match self.take(word) {
            true => Ok(()),
            false => Err(self.expected(&format!("`{word}`"))),
        }
    }

    /// The fault of a token that is not what is expected.
    fn expected(&self, what: &str) -> Fault {
        let next = self.next();
        let fault = self
            .place()
            .fault(format!("{what} is expected, not {next}"));
        match small_letters(next) {
            Some(advice) => advised(fault, &advice),
            None => fault,
        }
    }

    fn part(&mut self) -> Result<Part, Fault> {
        if self.take("row") {
            return self.list(Parser::field).map(Part::Row);
        }
        if self.take("show") {
            return self.list(Parser::shown).map(Part::Show);
        }
        if self.take("let") {
            let name = self.name("a name")?;
            if !self.take("=") {
                let advice = format!("a part gets a name by `let {} = ..`", name.text);
                return Err(advised(self.expected("`=`"), &advice));
            }
            return Ok(Part::Let(name, self.value()?));
        }
        Err(self.no_part())
    }

    /// What is wrong where a part should begin: the word there, or the one before it, which
    /// was taken for a name.
    fn no_part(&self) -> Fault {
        let fault = self.expected("`row`, `let` or `show`");
        let before = self.before().filter(|(token, _)| !self.gets_meaning(token));
        if let Some((token @ Token::Name(before), place)) = before {
            let foreign = || slips::word(before).map(String::from);
            if let Some(advice) = small_letters(token).or_else(foreign) {
                return place.fault(format!("`{before}` cannot stand here: {advice}"));
            }
        }
        let name = match self.next() {
            Token::Name(name) => name,
            Token::Fixed("(") if matches!(self.before(), Some((Token::Name(_), _))) => {
                return advised(fault, "there are no functions");
            }
            _ => return fault,
        };
        match (slips::word(name), self.behind()) {
            (Some(advice), _) => advised(fault, advice),
            (None, Token::Fixed("=")) => {
                let advice =
                    format!("`let {name} = ..` gives a part a name, `show {name} = ..` shows it");
                advised(fault, &advice)
            }
            (None, Token::Fixed(":")) if self.at == 0 => {
                let advice = format!("fields stand behind `row`, as `row {name}: 16`");
                advised(fault, &advice)
            }
            (None, Token::Fixed(":")) => advised(
                fault,
                "a comma stands between two fields, as `a: 16, b: 16`",
            ),
            _ => fault,
        }
    }

    /// Is this a name with a meaning, of a field, a `let` or a `show`?
    fn gets_meaning(&self, token: &Token) -> bool {
        let mut pairs = self.tokens.windows(2);
        pairs.any(|pair| pair[0].0 == *token && matches!(pair[1].0, Token::Fixed(":" | "=")))
    }

    /// The token before the next one.
    fn before(&self) -> Option<&(Token, Place)> {
        self.tokens.get(self.at.checked_sub(1)?)
    }

    /// The token behind the next one.
    fn behind(&self) -> &Token {
        let last = self.tokens.len() - 1;
        &self.tokens[last.min(self.at + 1)].0
    }

    /// One or more, with a comma between two.
    fn list<T>(&mut self, one: fn(&mut Parser) -> Result<T, Fault>) -> Result<Vec<T>, Fault> {
        let mut list = vec![one(self)?];
        while self.take(",") {
            let comma = self.tokens[self.at - 1].1;
            if matches!(
                self.next(),
                Token::End | Token::Fixed("row" | "let" | "show" | ")")
            ) {
                return Err(comma.fault("a comma stands between two, and none behind the last"));
            }
            list.push(one(self)?);
        }
        Ok(list)
    }

    fn name(&mut self, what: &str) -> Result<Name, Fault> {
        let place = self.place();
        let text = match self.next() {
            Token::Name(text) => text.clone(),
            Token::Fixed(word) if WORDS.contains(word) => {
                let advice = format!("`{word}` is no name, but `{word}_1` is one");
                return Err(advised(self.expected(what), &advice));
            }
            _ => return Err(self.expected(what)),
        };
        self.at += 1;
        Ok(Name { text, place })
    }

    fn number(&mut self, what: &str) -> Result<u128, Fault> {
        let Token::Number(number) = *self.next() else {
            return Err(self.expected(what));
        };
        self.at += 1;
        Ok(number)
    }

    fn field(&mut self) -> Result<Field, Fault> {
        let name = self.name("the name of a field")?;
        if !self.take(":") {
            let text = &name.text;
            let advice = match (self.next(), self.behind()) {
                (Token::Name(more), Token::Fixed(":")) => {
                    format!("a name is one word, as `{text}_{more}`")
                }
                _ => format!("a field is written with its bits, as `{text}: 16`"),
            };
            return Err(advised(self.expected("`:`"), &advice));
        }
        let width_place = self.place();
        let advice = || format!("a field is written with its bits, as `{}: 16`", name.text);
        let width = self.number("the number of bits of the field");
        let width = width.map_err(|fault| advised(fault, &advice()))?;
        Ok(Field {
            name,
            width,
            width_place,
        })
    }

    fn shown(&mut self) -> Result<(Name, Option<Value>), Fault> {
        if *self.next() == Token::Fixed("(") {
            let advice = "what is computed is shown under a name of its own: `show name = ..`";
            return Err(advised(self.expected("the name of what is shown"), advice));
        }
        let name = self.name("the name of what is shown")?;
        let value = match self.take("=") {
            true => Some(self.value()?),
            false => None,
        };
        if value.is_none() {
            self.nothing_computed(&name)?;
        }
        Ok((name, value))
    }

    /// Does nothing follow a shown name that would make more of it?
    fn nothing_computed(&self, name: &Name) -> Result<(), Fault> {
        let Token::Fixed(word) = self.next() else {
            return Ok(());
        };
        let text = &name.text;
        let advice = match *word {
            ":" => format!("what `{text}` stands for comes behind `=`: `show {text} = ..`"),
            "+" | "in" | "and" | "or" | "not" | "==" | "!=" | ">=" | "<=" | ">" | "<" => format!(
                "what is computed is shown under a name of its own: `show name = {text} {word} ..`"
            ),
            _ => return Ok(()),
        };
        Err(self
            .place()
            .fault(format!("`{word}` cannot stand here: {advice}")))
    }

    fn value(&mut self) -> Parsed {
        self.chain("or", Parser::all, Kind::Or)
    }

    fn all(&mut self) -> Parsed {
        self.chain("and", Parser::negated, Kind::And)
    }

    fn sum(&mut self) -> Parsed {
        self.chain("+", Parser::simple, Kind::Sum)
    }

    /// One of the kind, or several with the word between two.
    fn chain(
        &mut self,
        word: &str,
        one: fn(&mut Parser) -> Parsed,
        kind: fn(Vec<Value>) -> Kind,
    ) -> Parsed {
        let place = self.place();
        let first = one(self)?;
        let mut values = vec![first];
        while self.take(word) {
            values.push(one(self)?);
        }
        Ok(match values.len() {
            1 => values.remove(0),
            _ => Value {
                place,
                kind: kind(values),
            },
        })
    }

    fn negated(&mut self) -> Parsed {
        let place = self.place();
        if !self.take("not") {
            return self.compared();
        }
        let value = self.deeper(place, Parser::negated)?;
        let kind = Kind::Not(Box::new(value));
        Ok(Value { place, kind })
    }

    fn deeper(&mut self, place: Place, parse: fn(&mut Parser) -> Parsed) -> Parsed {
        self.depth += 1;
        if self.depth > MAX_DEPTH {
            let text = format!("more than {MAX_DEPTH} brackets and `not` in each other");
            return Err(place.fault(text));
        }
        let value = parse(self)?;
        self.depth -= 1;
        Ok(value)
    }

    fn compared(&mut self) -> Parsed {
        let place = self.place();
        let left = self.sum()?;
        self.not_assigned()?;
        if self.take("not") {
            self.need("in")?;
            let kind = Kind::Not(Box::new(self.member(left)?));
            return Ok(Value { place, kind });
        }
        if self.take("in") {
            return self.member(left);
        }
        let Some(comparison) = self.comparison() else {
            return Ok(left);
        };
        if matches!(
            (comparison, self.next()),
            (Comparison::Less, Token::Fixed(">"))
        ) {
            let text = "two numbers that are not equal are `!=`";
            return Err(self.place().fault(text));
        }
        if matches!(self.next(), Token::Fixed("=")) {
            let text = "`=` cannot stand here: two numbers are compared by `==`, `>=` or `<=`";
            return Err(self.place().fault(text));
        }
        let right = self.sum()?;
        let (again, second) = (self.place(), self.comparison());
        if second.is_some() {
            return Err(again.fault("a comparison has two sides: join two of them by `and`"));
        }
        let kind = Kind::Compare(Box::new(left), comparison, Box::new(right));
        Ok(Value { place, kind })
    }

    fn comparison(&mut self) -> Option<Comparison> {
        let found = COMPARISONS.into_iter().find(|(sign, _)| self.take(sign));
        found.map(|(_, comparison)| comparison)
    }

    /// A list of numbers and ranges, behind `in`.
    fn member(&mut self, left: Value) -> Parsed {
        if !self.take("(") {
            let advice = "numbers and ranges stand in brackets, as `in (3, 5 to 9)`";
            return Err(advised(self.expected("`(`"), advice));
        }
        let ranges = self.list(Parser::range)?;
        self.need(")")?;
        Ok(Value {
            place: left.place,
            kind: Kind::In(Box::new(left), ranges),
        })
    }

    fn range(&mut self) -> Result<(u128, u128), Fault> {
        let place = self.place();
        let low = self.listed()?;
        if !self.take("to") {
            return Ok((low, low));
        }
        let high = self.listed()?;
        match low <= high {
            true => Ok((low, high)),
            false => Err(place.fault(format!("there is no number from {low} to {high}"))),
        }
    }

    /// A number of a list.
    fn listed(&mut self) -> Result<u128, Fault> {
        let is_name = matches!(self.next(), Token::Name(_));
        self.number("a number").map_err(|fault| match is_name {
            true => advised(fault, "a list has numbers alone; write `a == b` for a name"),
            false => fault,
        })
    }

    fn simple(&mut self) -> Parsed {
        let place = self.place();
        if self.take("(") {
            let value = self.deeper(place, Parser::value)?;
            self.need(")")?;
            return Ok(Value { place, ..value });
        }
        let kind = match self.next() {
            Token::Number(number) => Kind::Number(*number),
            Token::Name(name) => Kind::Name(name.clone()),
            _ => return Err(self.expected("a number, a name or `(`")),
        };
        self.at += 1;
        Ok(Value { place, kind })
    }

    /// Is there no `=` where a comparison can be meant?
    fn not_assigned(&self) -> Result<(), Fault> {
        if *self.next() != Token::Fixed("=") {
            return Ok(());
        }
        let text = match self.behind() {
            Token::Fixed(">") => "`=>` cannot stand here: write `>=`",
            Token::Fixed("<") => "`=<` cannot stand here: write `<=`",
            _ => "to compare two numbers write `==`, `>=` or `<=`",
        };
        Err(self.place().fault(text))
    }
}

/// What to do about a word of the language in other letters.
fn small_letters(token: &Token) -> Option<String> {
    let Token::Name(name) = token else {
        return None;
    };
    let small = name.to_ascii_lowercase();
    let word = WORDS.into_iter().find(|word| *word == small)?;
    Some(format!("the word is `{word}`, in small letters"))
}
