//! Circuits in the published format Bristol Fashion, converted.

use super::Command;
use crate::args::Args;
use crate::failure::{tell, Failure};
use crate::input::Input;
use crate::kind::Kind;
use crate::names::counted;
use crate::output::Target;
use crate::report::Report;
use wivulameno::circuit::{from_bristol, from_bristol_to_vec};
use wivulameno::limits::{MAX_GATES, MAX_INPUTS, MAX_OUTPUTS};
use wivulameno::Refusal;

pub const CONVERT: Command = Command {
    name: "convert",
    usage: "TEXT --out CIRCUIT [--tidy]",
    about: "Make a circuit of a Bristol Fashion text.",
    help: "\
The text is a line with the number of gates and of wires, a line with the number
of input groups and the size of each, the same of the outputs, and a line for
each gate: `2 1 a b c XOR`, `2 1 a b c AND` or `1 1 a c INV`. The circuit takes
the inputs of all groups one after the other, and gives the outputs so. There is
one space between two words, none behind the last one, and every line ends in
LF. Empty lines are skipped.

  --out CIRCUIT  where the circuit goes
  --tidy         first take spaces and CR off the ends of the lines, and add an
                 LF to the last one if it has none: published files may want
                 this. What was changed is told on standard error

Refused, whichever comes first in the order of the lines:

  22  a line that breaks the rules, one too many, or one that is missing
  23  a gate of another kind
  24  more than 100000 gates, 512 inputs or 256 outputs, or no input or output

The number of the line is told, but for a 22 in the first three lines or at the
text's end.
",
    example: "  wv convert and.txt --out and.circuit\n",
    places: 1,
    times: 1,
    options: &["out"],
    repeated: &[],
    flags: &["tidy"],
    run: convert,
};

fn convert(args: &Args, report: &mut Report) -> Result<(), Failure> {
    let out = args.needed("out")?;
    let input = args.input(args.place(0))?;
    let taken = vec![(input.titled("the text"), input.place.clone())];
    let target = Target::find(out, &taken)?;
    let circuit = match args.flag("tidy") {
        true => {
            let tidy = Tidy::of(&input.bytes);
            tidy.tell(input.name_or("the typed text"));
            converted(&input, &tidy.text)?
        }
        false => converted(&input, &input.bytes)?,
    };
    let leaves_standard_output = target.leaves_standard_output();
    target.write(&circuit)?;
    if leaves_standard_output {
        let bytes = counted(circuit.len() as u64, "byte");
        report.line(&format!("converted to a circuit of {bytes}"));
    }
    Ok(())
}

fn converted(input: &Input, text: &[u8]) -> Result<Vec<u8>, Failure> {
    let failure = |refusal| {
        let name = input.name_or("the typed text");
        let place = Place::of(text, refusal).told();
        let of_lines = matches!(refusal, Refusal::Text | Refusal::GateKind);
        let can_be_tidied = of_lines && Tidy::of(text).text != text;
        let advice = match refusal {
            _ if can_be_tidied => "; `--tidy` mends the ends of lines".into(),
            Refusal::GateKind => "; write a gate of another kind as some of these".into(),
            Refusal::TextLimits => format!(
                "; a circuit has 1 to {MAX_INPUTS} inputs, 1 to {MAX_OUTPUTS} outputs and at most \
                 {MAX_GATES} gates: what has more is proved in parts"
            ),
            _ => String::new(),
        };
        let advice = other(Kind::of(&input.bytes)).unwrap_or(advice);
        Failure::Refused(refusal, format!("{name}: {place}{advice}"))
    };
    from_bristol_to_vec(text).map_err(failure)
}

/// What to do with what is no such text, if that can be told.
fn other(kind: Kind) -> Option<String> {
    let done = match kind {
        Kind::Bristol | Kind::Values | Kind::Hex | Kind::Text | Kind::Empty => return None,
        Kind::Circuit => "it is a circuit as `wv` takes it",
        Kind::OldCircuit => "`wv upgrade` makes a circuit of it",
        Kind::Statement => "`wv build` makes a circuit of it",
        _ => "`wv help convert` shows the form",
    };
    let what = kind.instead_of("Bristol Fashion text");
    Some(format!("; {what}: {done}"))
}

/// Where a text is refused.
#[derive(Debug, PartialEq, Eq)]
enum Place {
    /// In the first three lines that are not empty, or before they are there.
    Header,
    /// In the line of this number, from 1, empty lines counted.
    Line(usize),
    /// At its end: a gate line is missing.
    End,
}

impl Place {
    /// Finds the place by converting the text's first lines. The library tests
    /// lines in their order, so these are refused as the whole text is from the
    /// faulty line on.
    fn of(text: &[u8], refusal: Refusal) -> Place {
        let lines = Lines::of(text);
        match refusal {
            Refusal::Text => lines.broken(),
            _ => lines.first(|count| lines.answer(count, b"") == refusal),
        }
    }

    fn told(self) -> String {
        match self {
            Place::Header => "in its first three lines".into(),
            Place::Line(number) => format!("line {number}"),
            Place::End => "it ends before its last gate".into(),
        }
    }
}

/// The lines of a text that are not empty.
struct Lines<'a> {
    text: &'a [u8],
    /// The number of each, and where it ends, with its LF if it has one.
    ends: Vec<(usize, usize)>,
}

impl Lines<'_> {
    fn of(text: &[u8]) -> Lines<'_> {
        let mut end = 0;
        let lines = text.split_inclusive(|&byte| byte == b'\n').enumerate();
        let ends = lines.filter_map(|(before, line)| {
            end += line.len();
            (line != b"\n").then_some((before + 1, end))
        });
        Lines {
            text,
            ends: ends.collect(),
        }
    }

    /// What the library says to the first lines, so many of them, and `more`, with
    /// no room for a circuit.
    fn answer(&self, count: usize, more: &[u8]) -> Refusal {
        let end = count.checked_sub(1).map_or(0, |last| self.ends[last].1);
        let text = [&self.text[..end], more].concat();
        from_bristol(&text, &mut []).expect_err("no room")
    }

    /// The line that is the last of the fewest for which this holds, as it does for
    /// more. There are such lines.
    fn first(&self, holds: impl Fn(usize) -> bool) -> Place {
        let counts: Vec<usize> = (1..=self.ends.len()).collect();
        let place = counts.partition_point(|&count| !holds(count));
        Place::Line(self.ends[place].0)
    }

    /// Do the first lines, so many of them and the header among them, obey the
    /// rules? Then they are accepted, or a gate is due: one of an unknown kind is
    /// refused with 23.
    fn obey(&self, count: usize) -> bool {
        let is_accepted = self.answer(count, b"") == Refusal::Length;
        is_accepted || self.answer(count, b"?\n") == Refusal::GateKind
    }

    /// Where a text breaks the rules.
    fn broken(&self) -> Place {
        let count = self.ends.len();
        let is_ended = self.text.ends_with(b"\n");
        let ended = if is_ended {
            count
        } else {
            count.saturating_sub(1)
        };
        match ended < 3 || !self.obey(3) {
            true => Place::Header,
            false if self.obey(ended) && is_ended => Place::End,
            false => self.first(|count| count > ended || (count > 3 && !self.obey(count))),
        }
    }
}

/// A text without spaces and CR at the ends of its lines, and with a last LF.
struct Tidy {
    text: Vec<u8>,
    /// The lines that were shortened.
    shortened: usize,
    /// Was the last LF added?
    is_ended: bool,
}

impl Tidy {
    fn of(text: &[u8]) -> Tidy {
        let mut tidy = Tidy {
            text: Vec::with_capacity(text.len() + 1),
            shortened: 0,
            is_ended: false,
        };
        for line in text.split_inclusive(|&byte| byte == b'\n') {
            let whole = line.strip_suffix(b"\n");
            let line = whole.unwrap_or(line);
            let is_kept = |byte: &u8| !matches!(byte, b' ' | b'\r');
            let kept = line.iter().rposition(is_kept).map_or(0, |last| last + 1);
            tidy.text.extend(&line[..kept]);
            tidy.text.push(b'\n');
            tidy.shortened += usize::from(kept < line.len());
            tidy.is_ended = whole.is_none();
        }
        tidy
    }

    /// What was changed, if anything was.
    fn changes(&self) -> Option<String> {
        let lines = counted(self.shortened as u64, "line");
        match (self.shortened, self.is_ended) {
            (0, false) => None,
            (0, true) => Some("added the last LF".into()),
            (_, false) => Some(format!("took spaces and CR off the ends of {lines}")),
            (_, true) => Some(format!(
                "took spaces and CR off the ends of {lines} and added the last LF"
            )),
        }
    }

    fn tell(&self, name: &str) {
        if let Some(changes) = self.changes() {
            tell(&format!("note: {name}: {changes}"));
        }
    }
}

#[cfg(test)]
mod tests {
    use super::*;

    #[test]
    fn tidied_texts() {
        let known: [(&str, &str, Option<&str>); 8] = [
            ("", "", None),
            ("1 3\n\n1 1\n", "1 3\n\n1 1\n", None),
            ("1 3", "1 3\n", Some("added the last LF")),
            (
                "1 3 \r\n1 1\n",
                "1 3\n1 1\n",
                Some("took spaces and CR off the ends of 1 line"),
            ),
            (
                "1\r\n \n\r\n2\n",
                "1\n\n\n2\n",
                Some("took spaces and CR off the ends of 3 lines"),
            ),
            (
                "1 3\r\n1 1 ",
                "1 3\n1 1\n",
                Some("took spaces and CR off the ends of 2 lines and added the last LF"),
            ),
            (" 1\t\n", " 1\t\n", None),
            ("1\r3\n", "1\r3\n", None),
        ];
        for (text, expected, changes) in known {
            let tidy = Tidy::of(text.as_bytes());
            assert_eq!(tidy.text, expected.as_bytes(), "{text:?}");
            assert_eq!(tidy.changes().as_deref(), changes, "{text:?}");
        }
    }

    /// Two inputs, three gates in lines 5, 6 and 8.
    const TEXT: &str = "3 5\n1 2\n\n1 1\n2 1 0 1 2 XOR\n1 1 2 3 INV\n\n2 1 3 0 4 AND\n";

    fn place(text: &str) -> Option<Place> {
        let text = text.as_bytes();
        let refusal = from_bristol_to_vec(text).err()?;
        Some(Place::of(text, refusal))
    }

    #[test]
    fn places_in_a_text() {
        assert_eq!(place(TEXT), None);
        let known = [
            ("3 5\n", "3 05\n", Place::Header),
            ("3 5\n", "100001 5\n", Place::Line(1)),
            ("3 5\n1 2\n", "3 516\n1 513\n", Place::Line(2)),
            ("1 2\n", "1 3\n", Place::Header),
            ("\n1 1\n", "\n1 0\n", Place::Line(4)),
            ("\n1 1\n", "\n1 6\n", Place::Header),
            ("2 XOR", "5 XOR", Place::Line(5)),
            ("2 XOR", "2 OR", Place::Line(5)),
            ("2 3 INV", "4 3 INV", Place::Line(6)),
            ("4 AND", "3 AND", Place::Line(8)),
            ("4 AND\n", "4 AND", Place::Line(8)),
            ("4 AND\n", "4 NAND", Place::Line(8)),
            ("4 AND\n", "4 AND\n\n1 1 4 5 INV\n", Place::Line(10)),
            ("4 AND\n", "4 AND\n\n1 1 4 5 INV", Place::Line(10)),
            ("4 AND\n", "4 AND\n?\n?\n", Place::Line(9)),
            ("\n2 1 3 0 4 AND\n", "", Place::End),
            ("1 1 2 3 INV\n\n2 1 3 0 4 AND\n", "", Place::End),
        ];
        for (old, new, expected) in known {
            assert_eq!(TEXT.matches(old).count(), 1, "{old:?}");
            let text = TEXT.replace(old, new);
            assert_eq!(place(&text), Some(expected), "{text:?}");
        }
        let header_alone = &TEXT[..TEXT.find("2 1 0").expect("a gate")];
        assert_eq!(place(header_alone), Some(Place::End));
        for text in [
            "",
            "\n",
            "3 5",
            "3 5\n1 2\n",
            "3 5\n1 2\n1 1",
            "0 2\n1 2\n1",
        ] {
            assert_eq!(place(text), Some(Place::Header), "{text:?}");
        }
        assert_eq!(place("0 2\n1 2\n1 1\nAND\n"), Some(Place::Line(4)));
        assert_eq!(place("0 2\n1 2\n1 1\nAND"), Some(Place::Line(4)));
    }
}
