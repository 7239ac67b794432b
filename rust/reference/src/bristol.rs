//! Bristol Fashion text: converting it to a circuit file, and its meaning.

use crate::circuit::{Fields, Record, AND, INV, XOR};
use crate::circuit::{MOST_GATES, MOST_INPUTS, MOST_OUTPUTS};
use crate::Refusal;

/// A line without its LF, and whether it has one.
struct Line<'a> {
    bytes: &'a [u8],
    is_ended: bool,
}

/// A gate line. INV has b = 0.
struct Gate {
    kind: usize,
    a: usize,
    b: usize,
    c: usize,
}

/// A text that obeys the rules, its gates in the text's order.
struct Text {
    inputs: usize,
    outputs: usize,
    gates: Vec<Gate>,
}

/// Writes the circuit file of a text to the start of `out` and gives its length:
/// refusals 22, 23 and 24 in the order of the lines, then 6.
pub fn convert(text: &[u8], out: &mut [u8]) -> Result<usize, Refusal> {
    let file = read(text)?.fields().bytes();
    let lent = out.get_mut(..file.len()).ok_or(6_u32)?;
    lent.copy_from_slice(&file);
    Ok(file.len())
}

/// The lines that are not empty.
fn lines(text: &[u8]) -> impl Iterator<Item = Line<'_>> {
    let lines = text.split_inclusive(|&byte| byte == b'\n');
    let lines = lines.map(|line| match line.strip_suffix(b"\n") {
        Some(bytes) => Line {
            bytes,
            is_ended: true,
        },
        None => Line {
            bytes: line,
            is_ended: false,
        },
    });
    lines.filter(|line| !line.bytes.is_empty())
}

/// Tests the lines in their order. A text that ends early is refused at its end.
fn read(text: &[u8]) -> Result<Text, Refusal> {
    let mut lines = lines(text);
    let (count, wires) = first_line(&lines.next().ok_or(22_u32)?)?;
    let inputs = input_line(&lines.next().ok_or(22_u32)?, count, wires)?;
    let outputs = output_line(&lines.next().ok_or(22_u32)?, wires)?;
    let mut written = vec![false; wires];
    written[..inputs].fill(true);
    let mut gates = vec![];
    for _ in 0..count {
        let line = lines.next().ok_or(22_u32)?;
        gates.push(gate_line(&line, &mut written)?);
    }
    match lines.next() {
        Some(_) => Err(22),
        None => Ok(Text {
            inputs,
            outputs,
            gates,
        }),
    }
}

/// 1 to 9 digits, the first not 0 unless it is the only one.
fn number(token: &[u8]) -> Option<u64> {
    let digits = (1..=9).contains(&token.len()) && token.iter().all(u8::is_ascii_digit);
    if !digits || (token[0] == b'0' && token.len() > 1) {
        return None;
    }
    std::str::from_utf8(token).ok()?.parse().ok()
}

fn tokens(bytes: &[u8]) -> impl Iterator<Item = &[u8]> {
    bytes.split(|&byte| byte == b' ')
}

impl Line<'_> {
    /// A header line: numbers and nothing else, and an end.
    fn numbers(&self) -> Result<Vec<u64>, Refusal> {
        let numbers: Option<Vec<u64>> = tokens(self.bytes).map(number).collect();
        numbers.filter(|_| self.is_ended).ok_or(22)
    }

    /// The sum of a line of groups, which gives their number and then their sizes.
    fn sum_of_groups(&self) -> Result<u64, Refusal> {
        let numbers = self.numbers()?;
        let (&count, sizes) = numbers.split_first().ok_or(22_u32)?;
        match count == sizes.len() as u64 {
            true => Ok(sizes.iter().sum()),
            false => Err(22),
        }
    }
}

/// Gates and wires.
fn first_line(line: &Line) -> Result<(usize, usize), Refusal> {
    let [gates, wires] = line.numbers()?[..] else {
        return Err(22);
    };
    match gates <= MOST_GATES as u64 {
        true => Ok((gates as usize, wires as usize)),
        false => Err(24),
    }
}

/// I, the sum of the input groups.
fn input_line(line: &Line, gates: usize, wires: usize) -> Result<usize, Refusal> {
    let inputs = line.sum_of_groups()?;
    if inputs + gates as u64 != wires as u64 {
        return Err(22);
    }
    match (1..=MOST_INPUTS as u64).contains(&inputs) {
        true => Ok(inputs as usize),
        false => Err(24),
    }
}

/// O, the sum of the output groups.
fn output_line(line: &Line, wires: usize) -> Result<usize, Refusal> {
    let outputs = line.sum_of_groups()?;
    if outputs > wires as u64 {
        return Err(22);
    }
    match (1..=MOST_OUTPUTS as u64).contains(&outputs) {
        true => Ok(outputs as usize),
        false => Err(24),
    }
}

/// The kind of the line first, then all else. `written` has a place for each wire.
fn gate_line(line: &Line, written: &mut [bool]) -> Result<Gate, Refusal> {
    let kind = match tokens(line.bytes).last() {
        Some(b"XOR") => XOR,
        Some(b"AND") => AND,
        Some(b"INV") => INV,
        _ => return Err(23),
    };
    if !line.is_ended {
        return Err(22);
    }
    let mut before: Vec<&[u8]> = tokens(line.bytes).collect();
    before.pop();
    let numbers: Option<Vec<u64>> = before.into_iter().map(number).collect();
    let (a, b, c) = match (kind, &numbers.ok_or(22_u32)?[..]) {
        (INV, &[1, 1, a, c]) => (a, None, c),
        (XOR | AND, &[2, 1, a, b, c]) => (a, Some(b), c),
        _ => return Err(22),
    };
    let is_written = |wire: u64| written.get(wire as usize) == Some(&true);
    let reads = is_written(a) && b.is_none_or(is_written);
    let is_new = (c as usize) < written.len() && !is_written(c);
    if !reads || !is_new {
        return Err(22);
    }
    written[c as usize] = true;
    Ok(Gate {
        kind,
        a: a as usize,
        b: b.unwrap_or(0) as usize,
        c: c as usize,
    })
}

impl Text {
    /// The gate that writes wire w is in slot w - I + 1, the chain follows the text,
    /// and the outputs are the last wires.
    fn fields(&self) -> Fields {
        let (inputs, count) = (self.inputs, self.gates.len());
        let slot = |gate: &Gate| gate.c - inputs + 1;
        let mut links: Vec<usize> = self.gates.iter().map(slot).collect();
        links.push(0);
        let [kind, a, b, next] = [0; 4];
        let mut records = vec![Record { kind, a, b, next }; count];
        for (gate, &next) in self.gates.iter().zip(&links[1..]) {
            let Gate { kind, a, b, .. } = *gate;
            records[slot(gate) - 1] = Record { kind, a, b, next };
        }
        let wires = inputs + count;
        Fields {
            inputs,
            outputs: (wires - self.outputs..wires).collect(),
            head: links[0],
            records,
        }
    }
}

/// What a text that obeys the rules gives for these inputs, all groups one after
/// the other: the wires get their values line by line, and the last ones are the
/// outputs. Shares nothing with the conversion.
pub fn evaluate(text: &str, inputs: &[bool]) -> Vec<bool> {
    let mut lines = text.lines().filter(|line| !line.is_empty());
    let mut numbers = || {
        let line = lines.next().expect("a header of three lines");
        let numbers = line
            .split(' ')
            .map(|token| token.parse().expect("a number"));
        numbers.collect::<Vec<usize>>()
    };
    let [first, input_groups, output_groups] = [numbers(), numbers(), numbers()];
    assert_eq!(input_groups[1..].iter().sum::<usize>(), inputs.len());
    let mut wires: Vec<Option<bool>> = inputs.iter().copied().map(Some).collect();
    wires.resize(first[1], None);
    for line in lines {
        let words: Vec<&str> = line.split(' ').collect();
        let wire = |place: usize| words[place].parse::<usize>().expect("a wire");
        let value = |place| wires[wire(place)].expect("a wire written above");
        let (written, value) = match words[words.len() - 1] {
            "XOR" => (4, value(2) != value(3)),
            "AND" => (4, value(2) && value(3)),
            "INV" => (3, !value(2)),
            kind => panic!("no kind {kind}"),
        };
        wires[wire(written)] = Some(value);
    }
    let outputs: usize = output_groups[1..].iter().sum();
    let last = &wires[wires.len() - outputs..];
    last.iter().map(|value| value.expect("a value")).collect()
}

#[cfg(test)]
mod tests {
    use super::*;
    use crate::examples::{file, K};

    /// The answer, and what becomes of a buffer of `len` bytes of 0x55.
    fn converted(text: &str, len: usize) -> (Result<usize, Refusal>, Vec<u8>) {
        let mut out = vec![0x55; len];
        let answer = convert(text.as_bytes(), &mut out);
        (answer, out)
    }

    fn refused(text: &str) -> Option<Refusal> {
        let (answer, out) = converted(text, 40_000);
        assert!(answer.is_ok() || out == [0x55; 40_000]);
        answer.err()
    }

    #[test]
    fn k_as_text() {
        let text = "1 3\n2 1 1\n1 1\n\n2 1 0 1 2 AND\n";
        assert_eq!(converted(text, 36), (Ok(36), K.to_vec()));
        let (answer, out) = converted(text, 38);
        assert_eq!(
            (answer, &out[..36], &out[36..]),
            (Ok(36), &K[..], &[0x55; 2][..])
        );
        assert_eq!(converted(text, 35), (Err(6), vec![0x55; 35]));
    }

    /// Wire 2 is written last, and the outputs are wires 3 and 4.
    #[test]
    fn slots_chain_and_outputs() {
        let text = "3 5\n1 2\n1 2\n1 1 0 3 INV\n2 1 3 1 4 XOR\n2 1 4 0 2 AND\n";
        let file: [u8; 72] = file([
            2, 2, 3, 2, 3, 4, // head and outputs
            2, 4, 0, 0, // slot 1
            3, 0, 0, 3, // slot 2
            1, 3, 1, 1, // slot 3
        ]);
        assert_eq!(converted(text, 72), (Ok(72), file.to_vec()));
        let known = [
            ([0, 0], [1, 1]),
            ([1, 0], [0, 0]),
            ([0, 1], [1, 0]),
            ([1, 1], [0, 1]),
        ];
        for (inputs, outputs) in known {
            let found = evaluate(text, &inputs.map(|bit| bit == 1));
            assert_eq!(found, outputs.map(|bit| bit == 1), "{inputs:?}");
        }
    }

    #[test]
    fn no_gates() {
        let file: [u8; 20] = file([2, 1, 0, 0, 1]);
        let found = converted("0 2\n1 2\n1 1\n", 20);
        assert_eq!(found, (Ok(20), file.to_vec()));
        assert_eq!(evaluate("0 2\n1 2\n1 1\n", &[false, true]), [true]);
    }

    #[test]
    fn numbers() {
        let good = [("0", 0), ("7", 7), ("10", 10), ("999999999", 999_999_999)];
        for (token, value) in good {
            assert_eq!(number(token.as_bytes()), Some(value));
        }
        for token in ["", "00", "01", "1000000000", "-1", "+1", "1a", "1\r", "0x1"] {
            assert_eq!(number(token.as_bytes()), None, "{token}");
        }
    }

    #[test]
    fn the_first_refusal_in_line_order() {
        let known = [
            ("", 22),
            ("\n\n", 22),
            ("4097 1\n", 22),
            ("100000 1\n", 22),
            ("100001 1\n", 24),
            ("100001 01\n", 22),
            ("100001 1", 22),
            ("1 3\n1 3\n", 22),
            ("1 514\n1 513\n", 24),
            ("1 3\n1 2\n1 4\n", 22),
            ("1 3\n1 2\n0\n", 24),
            ("1 3\n1 2\n1 1\n2 1 0 1 2 OR\n", 23),
            ("1 3\n1 2\n1 1\n2 1 0 1 3 OR", 23),
            ("1 3\n1 2\n1 1\n2 1 0 1 2 AND", 22),
            ("1 3\n1 2\n1 1\n2 1 0 2 2 AND\n", 22),
            ("1 3\n1 2\n1 1\n2 1 0 1 2 AND\nOR\n", 22),
        ];
        for (text, number) in known {
            assert_eq!(refused(text), Some(number), "{text:?}");
        }
    }
}
