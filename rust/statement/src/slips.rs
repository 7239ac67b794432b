//! What is written in place of the language, and what to write instead.

use crate::lexer::Token;

/// What a text is for: advice for the one is none for the other.
#[derive(Clone, Copy, PartialEq, Eq)]
pub enum Text {
    Statement,
    /// `name=value`, some of them.
    Values,
}

/// A date, or digits in groups, at the start of a text that begins with a digit. In a list
/// in brackets a comma parts two numbers.
pub fn number(text: &str, in_brackets: bool) -> Option<String> {
    date(text).or_else(|| groups(text, in_brackets))
}

/// The digits that a text begins with, and what is behind them.
fn digits(text: &str) -> (&str, &str) {
    let end = text.find(|char: char| !char.is_ascii_digit());
    text.split_at(end.unwrap_or(text.len()))
}

fn date(text: &str) -> Option<String> {
    let (first, rest) = digits(text);
    let sign = rest
        .chars()
        .next()
        .filter(|sign| ['-', '/', '.'].contains(sign))?;
    let (second, rest) = digits(rest.strip_prefix(sign)?);
    let (third, rest) = digits(rest.strip_prefix(sign)?);
    let is_year_first = (first.len(), third.len()) == (4, 2);
    let is_year_last = third.len() == 4 && first.len() <= 2 && !first.is_empty();
    let ends = !rest.starts_with(|char: char| char.is_ascii_alphanumeric());
    if second.len() != 2 || !ends || !is_year_first && !is_year_last {
        return None;
    }
    let written = &text[..text.len() - rest.len()];
    let number = match is_year_first {
        true => format!("{first}{second}{third}"),
        false => format!("{third}{second}{first:0>2}"),
    };
    // Which of two numbers before a year is the month is not said.
    let advice = match is_year_first || sign == '.' {
        true => format!("`{number}`"),
        false => "as `20261201`".into(),
    };
    Some(format!(
        "`{written}` is no number: a date is one number of year, month and day, {advice}"
    ))
}

fn groups(text: &str, in_brackets: bool) -> Option<String> {
    let (first, rest) = digits(text);
    let sign = rest
        .chars()
        .next()
        .filter(|sign| ['_', ',', '\'', '’'].contains(sign))?;
    let mut all = first.to_string();
    let mut behind = rest;
    let mut has_zero = false;
    while let Some(next) = behind.strip_prefix(sign) {
        let (group, rest) = digits(next);
        let is_group = group.len() == 3 || sign == '_' && !group.is_empty();
        if !is_group || rest.starts_with(|char: char| char.is_ascii_alphabetic()) {
            break;
        }
        has_zero |= group.starts_with('0');
        all += group;
        behind = rest;
    }
    let written = &text[..text.len() - behind.len()];
    let is_list = sign == ',' && in_brackets && !has_zero;
    (written != first && !is_list)
        .then(|| format!("`{written}` is no number: its digits stand together, `{all}`"))
}

/// What to do about a character that begins no token, at the start of what is left of a
/// text, behind these tokens.
pub fn stray<'a>(kind: Text, before: impl Iterator<Item = &'a Token>, text: &str) -> String {
    let char = text.chars().next().expect("a character");
    if char.is_whitespace() {
        let code = u32::from(char);
        return format!("a space of another kind, U+{code:04X}: write a plain one");
    }
    let advice = match kind {
        Text::Statement => in_statement(before, char, text),
        Text::Values => in_values(char, text),
    };
    format!("`{char}` cannot stand here: {advice}")
}

const COMMENT: &str = "a comment begins with `#`";
const QUOTES: &str = "names and numbers stand without quotes";
const LETTERS: &str = "names have the letters a to z and A to Z, digits and `_`";

fn is_comment(text: &str) -> bool {
    ["--", "//", "/*"].iter().any(|sign| text.starts_with(sign))
}

fn is_quote(char: char) -> bool {
    "\"'`‘’“”„«»".contains(char)
}

fn is_dash(char: char) -> bool {
    "-‐‑‒–—−".contains(char)
}

fn in_statement<'a>(
    before: impl Iterator<Item = &'a Token>,
    char: char,
    text: &str,
) -> &'static str {
    match char {
        _ if is_comment(text) => COMMENT,
        _ if is_dash(char) && is_range(before) => "a range is written `in (1 to 5)`",
        _ if is_dash(char) => {
            "no number is negative: `a - b >= c` is written `a >= b + c`, and a name has `_`"
        }
        '.' | '…' => "a number is whole, and a range is written `in (1 to 5)`",
        '*' | '×' | '·' => "there is no product: twice a number is the sum `a + a`",
        '/' | '%' | '÷' => "there is no division: compare with a sum, as `a + a >= b`",
        ';' => "a part of a statement ends where the next begins, without a sign",
        _ if is_quote(char) => QUOTES,
        '[' | ']' | '{' | '}' => "brackets are `(` and `)`",
        '!' => "`not` stands before a condition, `!=` between two numbers",
        '&' | '∧' => "write `and`",
        '|' | '∨' => "write `or`",
        '¬' => "write `not`",
        '≥' | '⩾' => "write `>=`",
        '≤' | '⩽' => "write `<=`",
        '≠' => "write `!=`",
        '∈' => "write `in`",
        '?' => CHOICE,
        _ if char.is_alphanumeric() => LETTERS,
        _ => "it has no meaning",
    }
}

/// Do these tokens, the last one first, begin a list behind `in`?
fn is_range<'a>(mut before: impl Iterator<Item = &'a Token>) -> bool {
    let is_listed =
        |token: &&Token| matches!(token, Token::Number(_) | Token::Fixed("," | "(" | "to"));
    let last = before.next();
    let is_number = matches!(last, Some(Token::Number(_)));
    is_number && before.find(|token| !is_listed(token)) == Some(&Token::Fixed("in"))
}

fn in_values(char: char, text: &str) -> &'static str {
    match char {
        _ if is_comment(text) => COMMENT,
        _ if is_dash(char) => "no value is negative, and a name has `_`",
        '.' => "a value is a whole number",
        ';' | '|' => "white space or a comma stands between two values",
        _ if is_quote(char) => QUOTES,
        '[' | ']' | '{' | '}' => "values stand without brackets, as `on_hand=1000 order=250`",
        '*' | '/' | '%' => "a value is one number",
        _ if char.is_alphanumeric() => LETTERS,
        _ => "it has no meaning",
    }
}

const CHOICE: &str =
    "there is no choice between two values: show the condition itself, as `show ok = a > 3`";

/// What to do about a word of other languages.
pub fn word(word: &str) -> Option<&'static str> {
    let advice = match word.to_ascii_lowercase().as_str() {
        "if" | "then" | "else" | "when" | "unless" => CHOICE,
        "between" => "a range is written `in (1 to 5)`",
        "is" | "equals" | "eq" => "two numbers are compared by `==`",
        "xor" => "write `(c or d) and not (c and d)`",
        "hide" | "hidden" | "secret" | "private" => "what is not shown stays hidden",
        "prove" | "assert" | "require" | "check" | "where" => {
            "what is asked is shown under a name, as `show ok = a > 3`"
        }
        "output" | "print" | "return" | "public" | "reveal" => {
            "what the buyer sees stands behind `show`"
        }
        "field" | "fields" | "input" | "inputs" => "fields stand behind `row`, as `row a: 16`",
        "bit" | "bits" => "the bits of a field are a number alone, as `a: 16`",
        "define" | "set" | "var" | "const" => "`let` gives a part a name, as `let total = a + b`",
        _ => return None,
    };
    Some(advice)
}

/// The name that is likely to be meant by another one: the same but for capitals and `_`,
/// or with few letters changed, the fewest first.
pub fn nearest<'a>(name: &str, known: impl Iterator<Item = &'a str>) -> Option<&'a str> {
    let plain = |name: &str| name.replace('_', "").to_ascii_lowercase();
    let wanted = plain(name);
    let distances = known.map(|known| (distance(&wanted, &plain(known)), known));
    let near = distances.filter(|(distance, _)| *distance <= wanted.len() / 3);
    near.min_by_key(|(distance, _)| *distance)
        .map(|(_, known)| known)
}

/// So many letters have to be put in, taken out or changed.
fn distance(one: &str, other: &str) -> usize {
    let mut row: Vec<usize> = (0..=other.len()).collect();
    for (place, letter) in one.bytes().enumerate() {
        let mut corner = row[0];
        row[0] = place + 1;
        for (column, wanted) in other.bytes().enumerate() {
            let changed = corner + usize::from(letter != wanted);
            corner = row[column + 1];
            row[column + 1] = changed.min(corner + 1).min(row[column] + 1);
        }
    }
    row[other.len()]
}

#[cfg(test)]
mod tests {
    use super::*;

    #[test]
    fn distances() {
        let known = [
            ("", "", 0),
            ("abc", "", 3),
            ("", "ab", 2),
            ("order", "orders", 1),
            ("oder", "order", 1),
            ("ordre", "order", 2),
            ("kitten", "sitting", 3),
        ];
        for (one, other, expected) in known {
            assert_eq!(distance(one, other), expected, "{one} {other}");
            assert_eq!(distance(other, one), expected, "{one} {other}");
        }
    }

    #[test]
    fn nearest_names() {
        let known = ["on_hand", "order", "a", "ordered"];
        let found = |name: &str| nearest(name, known.into_iter());
        for (name, expected) in [
            ("onhand", "on_hand"),
            ("OnHand", "on_hand"),
            ("oder", "order"),
            ("orderd", "order"),
            ("orderedd", "ordered"),
            ("A", "a"),
        ] {
            assert_eq!(found(name), Some(expected), "{name}");
        }
        for name in ["b", "stock", "hand", "ab"] {
            assert_eq!(found(name), None, "{name}");
        }
    }

    #[test]
    fn numbers_that_are_none() {
        let date = |text: &str, advice: &str| {
            let told = "is no number: a date is one number of year, month and day,";
            let found = number(text, true).expect("a date");
            assert_eq!(found, format!("`{}` {told} {advice}", text.trim_end()));
        };
        date("2026-12-01", "`20261201`");
        date("2026/12/01 ", "`20261201`");
        date("2026.12.01", "`20261201`");
        date("01.12.2026", "`20261201`");
        date("1.12.2026", "`20261201`");
        date("12/01/2026", "as `20261201`");
        let grouped = |text: &str, all: &str| {
            let found = number(text, false).expect("groups");
            assert_eq!(
                found,
                format!("`{text}` is no number: its digits stand together, `{all}`")
            );
        };
        grouped("1,000", "1000");
        grouped("1,234,567", "1234567");
        grouped("1_000_000", "1000000");
        grouped("10_0", "100");
        grouped("1'000", "1000");
        for (text, in_brackets) in [
            ("1,200)", true),
            ("1, 200", false),
            ("1,20", false),
            ("1,b=3", false),
            ("1,200a", false),
            ("1_a", false),
            ("1-5", true),
            ("1-5-3", true),
            ("2026-12", true),
            ("2026-12-011", true),
            ("20261201", false),
        ] {
            assert_eq!(number(text, in_brackets), None, "{text}");
        }
        assert!(number("1,000)", true).is_some());
    }
}
