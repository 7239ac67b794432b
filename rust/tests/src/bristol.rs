//! Bristol Fashion texts: built gate by gate, printed from circuit files, damaged;
//! and their conversion by both implementations.

use crate::circuits::{File, Gate, AND, INV, XOR};
use crate::guarded::Guarded;
use crate::random::Random;

/// Converts a text by both, into `out_len` bytes; gives the whole buffer after a
/// success, and its file's length. What is lent must be the same afterwards.
pub fn compare(random: &mut Random, text: &[u8], out_len: usize) -> Result<(Vec<u8>, usize), u32> {
    let lent = Guarded::holding(random, text);
    let shift = random.below(8);
    let mut out = Guarded::new(random, shift, out_len);
    let mut expected = out.get().to_vec();
    let second = reference::bristol::convert(text, &mut expected);

    let before = random.word();
    let mut written = before;
    let ours = wivulameno::circuit::from_bristol_into(lent.get(), out.lent(), &mut written);
    let ours = ours.map_err(|refusal| refusal.number());
    let shown = shown(text);
    assert_eq!(ours, second.map(|_| ()), "{shown}");
    assert_eq!(written, second.map_or(before, |len| len as u64), "{shown}");
    assert!(out.get() == expected, "output, {shown}");
    assert!(out.outside_unchanged(), "beside the output, {shown}");
    assert!(second.is_ok() || out.unchanged(), "refused, {shown}");
    assert!(lent.unchanged(), "the text, {shown}");
    second.map(|len| (expected, len))
}

/// Room for the circuit file of a text: 16 bytes for its head, 4 for each of 256
/// outputs, 16 for each line.
pub fn room(text: &[u8]) -> usize {
    let lines = text.iter().filter(|&&byte| byte == b'\n').count();
    16 + 4 * 256 + 16 * lines
}

/// The circuit file of a text by both, which have more than enough room.
pub fn converted(random: &mut Random, text: &[u8]) -> Result<Vec<u8>, u32> {
    let (mut file, len) = compare(random, text, room(text) + 7)?;
    file.truncate(len);
    Ok(file)
}

/// For the message of a failure.
pub fn shown(text: &[u8]) -> String {
    let start = &text[..text.len().min(600)];
    format!("text of {} bytes: {}", text.len(), start.escape_ascii())
}

/// Lines, each ended by LF.
pub fn text_of<T: AsRef<str>>(lines: &[T]) -> String {
    let lines = lines.iter().map(|line| format!("{}\n", line.as_ref()));
    lines.collect()
}

fn gate_line(kind: u32, [a, b, c]: [usize; 3]) -> String {
    match kind {
        XOR => format!("2 1 {a} {b} {c} XOR"),
        AND => format!("2 1 {a} {b} {c} AND"),
        INV => format!("1 1 {a} {c} INV"),
        kind => panic!("no kind {kind}"),
    }
}

/// The number of groups and their sizes.
fn group_line(groups: &[usize]) -> String {
    let sizes: String = groups.iter().map(|size| format!(" {size}")).collect();
    format!("{}{sizes}", groups.len())
}

/// A circuit with groups of inputs. Gate k writes wire I + k until it is printed.
pub struct Builder {
    groups: Vec<usize>,
    gates: Vec<(u32, usize, usize)>,
}

impl Builder {
    pub fn new(groups: &[usize]) -> Builder {
        Builder {
            groups: groups.to_vec(),
            gates: vec![],
        }
    }

    fn inputs(&self) -> usize {
        self.groups.iter().sum()
    }

    /// The wires of an input group.
    pub fn group(&self, group: usize) -> Vec<usize> {
        let first: usize = self.groups[..group].iter().sum();
        (first..first + self.groups[group]).collect()
    }

    fn gate(&mut self, kind: u32, a: usize, b: usize) -> usize {
        self.gates.push((kind, a, b));
        self.inputs() + self.gates.len() - 1
    }

    pub fn xor(&mut self, a: usize, b: usize) -> usize {
        self.gate(XOR, a, b)
    }

    pub fn and(&mut self, a: usize, b: usize) -> usize {
        self.gate(AND, a, b)
    }

    pub fn inv(&mut self, a: usize) -> usize {
        self.gate(INV, a, 0)
    }

    /// 1 if two of three are.
    pub fn majority(&mut self, a: usize, b: usize, c: usize) -> usize {
        let [left, right] = [self.xor(a, c), self.xor(b, c)];
        let both = self.and(left, right);
        self.xor(both, c)
    }

    /// The text, as the published ones are: the outputs, of which each is another
    /// gate's wire, have the last numbers, and empty lines stand behind the header
    /// and at the end.
    pub fn text(&self, outputs: &[Vec<usize>]) -> String {
        let (inputs, gates) = (self.inputs(), self.gates.len());
        let sizes: Vec<usize> = outputs.iter().map(Vec::len).collect();
        let outputs = outputs.concat();
        let mut wires: Vec<usize> = (0..inputs + gates).collect();
        wires.retain(|wire| !outputs.contains(wire));
        wires.extend(&outputs);
        assert_eq!(wires.len(), inputs + gates, "an output is given twice");
        let mut numbers = vec![0; wires.len()];
        for (number, wire) in wires.into_iter().enumerate() {
            numbers[wire] = number;
        }
        assert!((0..inputs).all(|wire| numbers[wire] == wire), "an input");
        let mut lines = vec![
            format!("{gates} {}", inputs + gates),
            group_line(&self.groups),
            group_line(&sizes),
            String::new(),
        ];
        for (k, &(kind, a, b)) in self.gates.iter().enumerate() {
            lines.push(gate_line(
                kind,
                [a, b, inputs + k].map(|wire| numbers[wire]),
            ));
        }
        lines.push(String::new());
        text_of(&lines)
    }
}

/// The sum without its last carry: 64 bits and 64 bits, as the published adder.
pub fn adder(bits: usize) -> String {
    let mut builder = Builder::new(&[bits, bits]);
    let (a, b) = (builder.group(0), builder.group(1));
    let mut sum = vec![builder.xor(a[0], b[0])];
    let mut carry = builder.and(a[0], b[0]);
    for k in 1..bits {
        let half = builder.xor(a[k], b[k]);
        sum.push(builder.xor(half, carry));
        if k + 1 < bits {
            carry = builder.majority(a[k], b[k], carry);
        }
    }
    builder.text(&[sum])
}

/// Two output groups of one bit: is the first number less, are they equal?
pub fn comparator(bits: usize) -> String {
    let mut builder = Builder::new(&[bits, bits]);
    let (a, b) = (builder.group(0), builder.group(1));
    let [mut less, mut equal] = [None, None];
    for k in 0..bits {
        let not_a = builder.inv(a[k]);
        less = Some(match less {
            None => builder.and(not_a, b[k]),
            Some(borrow) => builder.majority(not_a, b[k], borrow),
        });
        let same = builder.xor(not_a, b[k]);
        equal = Some(match equal {
            None => builder.and(same, same),
            Some(below) => builder.and(same, below),
        });
    }
    builder.text(&[less, equal].map(|wire| vec![wire.expect("a bit")]))
}

/// The whole product, of twice the bits.
pub fn multiplier(bits: usize) -> String {
    let mut builder = Builder::new(&[bits, bits]);
    let (a, b) = (builder.group(0), builder.group(1));
    let zero = builder.xor(a[0], a[0]);
    let mut sum = vec![zero; 2 * bits];
    for k in 0..bits {
        let mut carry = zero;
        for (j, &bit) in a.iter().enumerate() {
            let product = builder.and(bit, b[k]);
            let half = builder.xor(product, carry);
            let next = builder.majority(product, sum[k + j], carry);
            sum[k + j] = builder.xor(half, sum[k + j]);
            carry = next;
        }
        // The row above ends here. Its wire is an output once, so it is copied.
        sum[k + bits] = builder.xor(carry, zero);
    }
    builder.text(&[sum])
}

/// The text of a file whose chain visits `slots` and whose outputs are the last
/// wires in order: its conversion is the file itself.
pub fn printed(file: &File, slots: &[usize], groups: [&[usize]; 2]) -> String {
    let lines = [header(file.counts, groups), gate_lines(file, slots)];
    text_of(&lines.concat())
}

/// The same of a file with any outputs. Each is copied by two INV, which are at the
/// end: its conversion is another file with the same function.
pub fn printed_with_copies(file: &File, slots: &[usize], groups: [&[usize]; 2]) -> String {
    let [inputs, outputs, gates] = file.counts.map(|count| count as usize);
    let counts = [inputs, outputs, gates + 2 * outputs].map(|count| count as u32);
    let mut lines = [header(counts, groups), gate_lines(file, slots)].concat();
    let first = inputs + gates;
    for (k, &wire) in file.outputs.iter().enumerate() {
        lines.push(gate_line(INV, [wire as usize, 0, first + k]));
    }
    for k in first..first + outputs {
        lines.push(gate_line(INV, [k, 0, k + outputs]));
    }
    text_of(&lines)
}

fn header([inputs, _, gates]: [u32; 3], groups: [&[usize]; 2]) -> Vec<String> {
    let wires = inputs + gates;
    vec![
        format!("{gates} {wires}"),
        group_line(groups[0]),
        group_line(groups[1]),
    ]
}

fn gate_lines(file: &File, slots: &[usize]) -> Vec<String> {
    let inputs = file.counts[0] as usize;
    let lines = slots.iter().map(|slot| {
        let Gate { kind, a, b, .. } = file.gates[slot - 1];
        gate_line(kind, [a as usize, b as usize, inputs + slot - 1])
    });
    lines.collect()
}

/// Sizes with this sum: some of them are often 0.
pub fn any_groups(random: &mut Random, sum: usize) -> Vec<usize> {
    let mut groups = vec![];
    let mut rest = sum;
    while rest > 0 || random.once_in(4) {
        let size = random.from_to(0, rest);
        groups.push(size);
        rest -= size;
    }
    groups
}

/// The text with a few more empty lines.
pub fn spaced(random: &mut Random, text: &str) -> String {
    let lines = text.split_inclusive('\n').map(|line| {
        let more = if random.once_in(5) {
            random.from_to(1, 3)
        } else {
            0
        };
        format!("{}{line}", "\n".repeat(more))
    });
    let text: String = lines.collect();
    text + &"\n".repeat(random.below(2))
}

/// The text with one damage or two. It may be good nevertheless.
pub fn damaged(random: &mut Random, text: &[u8]) -> Vec<u8> {
    let mut text = text.to_vec();
    for _ in 0..random.from_to(1, 2) {
        text = random.pick(&DAMAGES)(random, text);
    }
    text
}

type Damage = fn(&mut Random, Vec<u8>) -> Vec<u8>;

const DAMAGES: [Damage; 13] = [
    other_sizes,
    another_byte,
    more_bytes,
    fewer_bytes,
    another_token,
    another_token,
    near_number,
    near_number,
    another_line,
    swapped_lines,
    without_line,
    twice_a_line,
    cut,
];

const BYTES: &[u8] = b" \n\r\t\0\x0b\xa0\xff0012345679-+.,xXORANDINVEQ";

/// Often sizes beyond the limits, in lines that agree with each other.
fn other_sizes(random: &mut Random, text: Vec<u8>) -> Vec<u8> {
    let mut lines = lines_of(&text);
    let first = lines.first().map(|line| String::from_utf8_lossy(line));
    let numbers = first.and_then(|line| {
        let (gates, wires) = line.trim_end().split_once(' ')?;
        Some((gates.parse::<u64>().ok()?, wires.parse::<u64>().ok()?))
    });
    let (Some((gates, wires)), true) = (numbers, lines.len() > 2) else {
        return text;
    };
    match random.below(3) {
        0 => {
            let gates = random.pick(&[4097, 65_536, 100_000, 100_001, 999_999_999]);
            lines[0] = format!("{gates} {wires}\n").into();
        }
        1 => {
            let inputs = random.pick(&[0, 1, 512, 513, 65_537]);
            lines[0] = format!("{gates} {}\n", inputs + gates).into();
            lines[1] = format!("1 {inputs}\n").into();
        }
        _ => {
            let outputs = random.pick(&[0, 1, 256, 257, wires, wires + 1]);
            lines[2] = format!("1 {outputs}\n").into();
        }
    }
    lines.concat()
}

fn another_byte(random: &mut Random, mut text: Vec<u8>) -> Vec<u8> {
    if !text.is_empty() {
        let place = random.below(text.len());
        text[place] = random.pick(BYTES);
    }
    text
}

fn more_bytes(random: &mut Random, mut text: Vec<u8>) -> Vec<u8> {
    let place = random.from_to(0, text.len());
    let more = random.pick(BYTES);
    text.insert(place, more);
    text
}

fn fewer_bytes(random: &mut Random, mut text: Vec<u8>) -> Vec<u8> {
    if !text.is_empty() {
        text.remove(random.below(text.len()));
    }
    text
}

/// The places of a token: between two bytes that are a space, a line's end or an
/// end of the text.
fn a_token(random: &mut Random, text: &[u8]) -> std::ops::Range<usize> {
    let is_between = |byte: &u8| matches!(byte, b' ' | b'\n');
    let place = random.from_to(0, text.len());
    let start = text[..place].iter().rposition(is_between);
    let len = text[place..].iter().position(is_between);
    start.map_or(0, |before| before + 1)..len.map_or(text.len(), |len| place + len)
}

fn with_token(text: &[u8], place: std::ops::Range<usize>, token: &[u8]) -> Vec<u8> {
    [&text[..place.start], token, &text[place.end..]].concat()
}

fn another_token(random: &mut Random, text: Vec<u8>) -> Vec<u8> {
    let tokens: &[&[u8]] = &[
        b"",
        b" ",
        b"0",
        b"00",
        b"01",
        b"1",
        b"2",
        b"3",
        b"4",
        b"5",
        b"256",
        b"257",
        b"512",
        b"513",
        b"65536",
        b"100000",
        b"100001",
        b"999999999",
        b"1000000000",
        b"4294967296",
        b"-1",
        b"XOR",
        b"AND",
        b"INV",
        b"EQ",
        b"EQW",
        b"MAND",
        b"OR",
        b"xor",
        b"XOR\r",
    ];
    let place = a_token(random, &text);
    with_token(&text, place, random.pick(tokens))
}

/// A number that is greater or less by a few, so that wires and counts change.
fn near_number(random: &mut Random, text: Vec<u8>) -> Vec<u8> {
    for _ in 0..20 {
        let place = a_token(random, &text);
        let token = String::from_utf8_lossy(&text[place.clone()]);
        if let Ok(number) = token.parse::<u64>() {
            let number = (number + random.pick(&[1, 2, 3, 4, 5])).saturating_sub(3);
            return with_token(&text, place, number.to_string().as_bytes());
        }
    }
    text
}

fn lines_of(text: &[u8]) -> Vec<Vec<u8>> {
    let lines = text.split_inclusive(|&byte| byte == b'\n');
    lines.map(<[u8]>::to_vec).collect()
}

fn another_line(random: &mut Random, text: Vec<u8>) -> Vec<u8> {
    let lines: &[&[u8]] = &[
        b"\n",
        b" \n",
        b"\r\n",
        b"XOR\n",
        b"2 1 0 0 1 XOR\n",
        b"2 1 0 1 2 AND\n",
        b"1 1 0 1 INV\n",
        b"1 1 0 1 EQ\n",
        b"1 1 0 1 EQW\n",
        b"4 2 0 0 0 0 1 2 MAND\n",
        b"0\n",
        b"1 1\n",
        b"3 6\n",
        b"3",
        b"2 1 0 0 1 XOR",
    ];
    let mut all = lines_of(&text);
    let place = random.from_to(0, all.len());
    all.insert(place, random.pick(lines).to_vec());
    all.concat()
}

fn swapped_lines(random: &mut Random, text: Vec<u8>) -> Vec<u8> {
    let mut lines = lines_of(&text);
    if lines.len() > 1 {
        let place = random.below(lines.len() - 1);
        let any = random.below(lines.len());
        let other = random.pick(&[place + 1, any]);
        lines.swap(place, other);
    }
    lines.concat()
}

fn without_line(random: &mut Random, text: Vec<u8>) -> Vec<u8> {
    let mut lines = lines_of(&text);
    if !lines.is_empty() {
        lines.remove(random.below(lines.len()));
    }
    lines.concat()
}

fn twice_a_line(random: &mut Random, text: Vec<u8>) -> Vec<u8> {
    let mut lines = lines_of(&text);
    if !lines.is_empty() {
        let line = lines[random.below(lines.len())].clone();
        let place = random.from_to(0, lines.len());
        lines.insert(place, line);
    }
    lines.concat()
}

fn cut(random: &mut Random, mut text: Vec<u8>) -> Vec<u8> {
    let len = random.from_to(0, text.len());
    text.truncate(random.pick(&[len, text.len().saturating_sub(1)]));
    text
}

#[cfg(test)]
mod tests {
    use super::*;

    /// Three gates, of which the first writes the output.
    #[test]
    fn outputs_are_the_last_wires() {
        let mut builder = Builder::new(&[1, 1]);
        let both = builder.and(0, 1);
        let not = builder.inv(both);
        builder.xor(not, 0);
        let text = "3 5\n2 1 1\n1 1\n\n2 1 0 1 4 AND\n1 1 4 2 INV\n2 1 2 0 3 XOR\n\n";
        assert_eq!(builder.text(&[vec![both]]), text);
    }

    #[test]
    fn a_printed_file() {
        let mut file = crate::circuits::row_of_gates(2);
        file.gates[0].a = 2;
        file.link(&[2, 1]);
        let text = "2 3\n1 1\n1 1\n1 1 0 2 INV\n1 1 2 1 INV\n";
        assert_eq!(printed(&file, &[2, 1], [&[1], &[1]]), text);
        let copied = "4 5\n1 1\n1 1\n1 1 0 2 INV\n1 1 2 1 INV\n1 1 0 3 INV\n1 1 3 4 INV\n";
        assert_eq!(printed_with_copies(&file, &[2, 1], [&[1], &[1]]), copied);
    }

    #[test]
    fn groups_have_their_sum() {
        let mut random = Random::new(1);
        for sum in (0..100).chain([512]) {
            assert_eq!(any_groups(&mut random, sum).iter().sum::<usize>(), sum);
        }
    }

    #[test]
    fn most_damages_are_refused() {
        let mut random = Random::new(2);
        let text = adder(4);
        let refused = (0..400).filter(|_| {
            let text = damaged(&mut random, text.as_bytes());
            reference::bristol::convert(&text, &mut [0; 1000]).is_err()
        });
        let refused = refused.count();
        assert!((250..400).contains(&refused), "{refused} of 400");
    }
}
