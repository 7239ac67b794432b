//! The tables of `docs/formats.md`: places and lengths as formulas, and the inputs of
//! hashes.

use std::collections::BTreeMap;

/// The tables of a Markdown text, each a list of rows, each a list of cells. The
/// head of a table is its first row.
pub fn tables(text: &str) -> Vec<Vec<Vec<String>>> {
    let mut tables = vec![vec![]];
    for line in text.lines() {
        let inner = line
            .strip_prefix("| ")
            .and_then(|line| line.strip_suffix('|'));
        match inner {
            Some(inner) if !inner.starts_with("---") => {
                let cells = inner.split('|').map(|cell| cell.trim().to_string());
                tables.last_mut().expect("a table").push(cells.collect());
            }
            Some(_) => {}
            None => tables.push(vec![]),
        }
    }
    tables.retain(|table| !table.is_empty());
    tables
}

/// The part of a text below the heading `## name`.
pub fn section<'a>(text: &'a str, name: &str) -> &'a str {
    let found = text.split(&format!("\n## {name}\n")).nth(1);
    let found = found.unwrap_or_else(|| panic!("no section {name}"));
    found.split("\n## ").next().expect("a part")
}

/// Places and lengths of fields, as formulas.
#[derive(Debug)]
pub struct Layout(BTreeMap<String, (String, String)>);

impl Layout {
    /// From a table with the columns offset, bytes, field, what.
    pub fn of(table: &[Vec<String>]) -> Layout {
        assert_eq!(table[0][..3], ["offset", "bytes", "field"]);
        let mut fields = BTreeMap::new();
        for row in &table[1..] {
            let place = (row[0].clone(), row[1].clone());
            let name = match fields.contains_key(&row[2]) {
                true => format!("{} again", row[2]),
                false => row[2].clone(),
            };
            fields.insert(name, place);
        }
        Layout(fields)
    }

    /// Where a field begins and ends.
    pub fn range(&self, field: &str, names: &[(&str, usize)]) -> std::ops::Range<usize> {
        let found = self.0.get(field);
        let (place, len) = found.unwrap_or_else(|| panic!("no field {field}"));
        let place = value(place, names);
        place..place + value(len, names)
    }

    /// The bytes of a field.
    pub fn get<'a>(&self, bytes: &'a [u8], field: &str, names: &[(&str, usize)]) -> &'a [u8] {
        &bytes[self.range(field, names)]
    }

    /// A field that is a number, little-endian.
    pub fn number(&self, bytes: &[u8], field: &str, names: &[(&str, usize)]) -> usize {
        let field = self.get(bytes, field, names);
        let digits = field.iter().rev();
        digits.fold(0, |number, &byte| 256 * number + usize::from(byte))
    }

    /// The names of the fields.
    pub fn fields(&self) -> impl Iterator<Item = &str> {
        self.0.keys().map(String::as_str)
    }
}

/// The value of a formula: sums and differences of products, with brackets, names of
/// one letter, `oct(..)` and `log2(..)`.
pub fn value(formula: &str, names: &[(&str, usize)]) -> usize {
    let mut rest: Vec<char> = formula.chars().filter(|c| !c.is_whitespace()).collect();
    rest.reverse();
    let value = sum(&mut rest, names);
    assert!(rest.is_empty(), "{formula}");
    value
}

fn sum(rest: &mut Vec<char>, names: &[(&str, usize)]) -> usize {
    let mut value = product(rest, names);
    while let Some(&sign) = rest.last().filter(|sign| ['+', '−'].contains(sign)) {
        rest.pop();
        let next = product(rest, names);
        value = if sign == '+' {
            value + next
        } else {
            value - next
        };
    }
    value
}

fn product(rest: &mut Vec<char>, names: &[(&str, usize)]) -> usize {
    let mut value = factor(rest, names);
    while rest
        .last()
        .is_some_and(|c| c.is_alphanumeric() || *c == '(')
    {
        value *= factor(rest, names);
    }
    value
}

fn factor(rest: &mut Vec<char>, names: &[(&str, usize)]) -> usize {
    let mut word = String::new();
    let is_digit = rest.last().is_some_and(char::is_ascii_digit);
    while let Some(&c) = rest.last() {
        let goes_on = match is_digit {
            true => c.is_ascii_digit(),
            false => c.is_alphanumeric(),
        };
        let known = names.iter().any(|(name, _)| *name == word);
        if !goes_on || known {
            break;
        }
        word.push(c);
        rest.pop();
    }
    match (word.as_str(), names.iter().find(|(name, _)| *name == word)) {
        ("", _) => bracket(rest, names),
        ("oct", _) => bracket(rest, names).div_ceil(8),
        ("log2", _) => bracket(rest, names).ilog2() as usize,
        (_, Some((_, value))) => *value,
        (digits, None) => digits
            .parse()
            .unwrap_or_else(|_| panic!("no value for {digits}")),
    }
}

fn bracket(rest: &mut Vec<char>, names: &[(&str, usize)]) -> usize {
    assert_eq!(rest.pop(), Some('('));
    let value = sum(rest, names);
    assert_eq!(rest.pop(), Some(')'));
    value
}

#[cfg(test)]
mod tests {
    use super::*;

    #[test]
    fn formulas() {
        let names = [("O", 17), ("k", 3), ("G", 63)];
        assert_eq!(value("16 + 4O + 16(k − 1)", &names), 16 + 68 + 32);
        assert_eq!(value("16 log2(k + 13) + oct(O)", &names), 64 + 3);
        assert_eq!(value("12", &names), 12);
        assert_eq!(value("50 + 51(k − 2)", &names), 101);
        assert_eq!(value("G", &names), 63);
    }

    #[test]
    fn tables_of_a_text() {
        let text =
            "a\n\n## B\n\n| offset | bytes | field |\n| --- | --- | --- |\n| 2 | 2 | x |\n\n## C\n";
        let layout = Layout::of(&tables(section(text, "B"))[0]);
        assert_eq!(layout.number(&[9, 9, 1, 2], "x", &[]), 513);
    }
}
