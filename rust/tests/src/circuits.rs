//! Circuit files, legal and damaged.

use crate::random::Random;

pub const XOR: u32 = 1;
pub const AND: u32 = 2;
pub const INV: u32 = 3;

/// The bytes of these fields.
pub const fn fields<const FIELDS: usize, const BYTES: usize>(words: [u32; FIELDS]) -> [u8; BYTES] {
    assert!(BYTES == 4 * FIELDS);
    let mut bytes = [0; BYTES];
    let mut place = 0;
    while place < BYTES {
        bytes[place] = words[place / 4].to_le_bytes()[place % 4];
        place += 1;
    }
    bytes
}

/// The circuit K of the scope paper: one AND of two inputs.
pub const K: [u8; 36] = fields([2, 1, 1, 1, 2, 2, 0, 1, 0]);

/// Five inputs, wires 0 to 4. In chain order: slot 3 is 0 AND 1 (wire 7), slot 1
/// is NOT 7 (wire 5), slot 4 is 5 AND 2 (wire 8), slot 2 is 8 XOR 3 (wire 6),
/// slot 5 is 6 AND 4 (wire 9). The outputs are wire 9, input 4 and wire 6.
pub const FIVE: [u8; 108] = fields([
    5, 3, 5, 3, // head
    9, 4, 6, // outputs
    3, 7, 0, 4, // slot 1
    1, 8, 3, 5, // slot 2
    2, 0, 1, 1, // slot 3
    2, 5, 2, 2, // slot 4
    2, 6, 4, 0, // slot 5
]);

/// The file with other fields at some places, counted in fields.
pub fn with(file: &[u8], changes: &[(usize, u32)]) -> Vec<u8> {
    let mut file = file.to_vec();
    for &(place, field) in changes {
        file[4 * place..][..4].copy_from_slice(&field.to_le_bytes());
    }
    file
}

/// `FIVE` with one fault, for each refusal of a circuit in their order.
pub fn faults_of_five() -> [(u32, Vec<u8>); 8] {
    [
        (1, FIVE[..15].to_vec()),
        (2, with(&FIVE, &[(0, 0)])),
        (1, FIVE[..107].to_vec()),
        (3, with(&FIVE, &[(7, 4)])),
        (19, with(&FIVE, &[(3, 6)])),
        (20, with(&FIVE, &[(3, 0)])),
        (21, with(&FIVE, &[(26, 3)])),
        (5, with(&FIVE, &[(8, 9)])),
    ]
}

/// A record; the fields are as wide as in the file.
#[derive(Clone, Copy, Debug)]
pub struct Gate {
    pub kind: u32,
    pub a: u32,
    pub b: u32,
    pub next: u32,
}

/// A circuit file, field by field. `counts` is I, O and G as the head says.
#[derive(Clone, Debug)]
pub struct File {
    pub counts: [u32; 3],
    pub head: u32,
    pub outputs: Vec<u32>,
    pub gates: Vec<Gate>,
}

impl File {
    pub fn bytes(&self) -> Vec<u8> {
        let fields = self.fields().into_iter();
        fields.flat_map(|field| field.to_le_bytes()).collect()
    }

    /// The file in the old form, whose fields have 16 bits; a kind and the zero byte
    /// after it are one of them here.
    pub fn old_bytes(&self) -> Vec<u8> {
        let fields = self.fields().into_iter();
        let fields = fields.map(|field| u16::try_from(field).expect("a field of 16 bits"));
        fields.flat_map(|field| field.to_le_bytes()).collect()
    }

    /// All fields in the order of the file.
    fn fields(&self) -> Vec<u32> {
        let mut fields = self.counts.to_vec();
        fields.push(self.head);
        fields.extend(&self.outputs);
        for gate in &self.gates {
            fields.extend([gate.kind, gate.a, gate.b, gate.next]);
        }
        fields
    }

    /// The file with these bytes, which must be legal.
    pub fn of(bytes: &[u8]) -> File {
        let fields = bytes
            .chunks(4)
            .map(|field| field.try_into().expect("a field"));
        let fields: Vec<u32> = fields.map(u32::from_le_bytes).collect();
        let (outputs, gates) = fields[4..].split_at(fields[1] as usize);
        let gate = |gate: &[u32]| Gate {
            kind: gate[0],
            a: gate[1],
            b: gate[2],
            next: gate[3],
        };
        File {
            counts: [fields[0], fields[1], fields[2]],
            head: fields[3],
            outputs: outputs.to_vec(),
            gates: gates.chunks(4).map(gate).collect(),
        }
    }

    /// The slots that the chain visits, in their order.
    pub fn chain(&self) -> Vec<usize> {
        let mut slots = vec![];
        let mut link = self.head as usize;
        while link != 0 {
            slots.push(link);
            link = self.gates[link - 1].next as usize;
        }
        slots
    }

    /// Sets head and links so that the chain visits `slots`.
    pub fn link(&mut self, slots: &[usize]) {
        let mut next = 0;
        for &slot in slots.iter().rev() {
            self.gates[slot - 1].next = next;
            next = slot as u32;
        }
        self.head = next;
    }
}

impl File {
    /// The same gates in the same order of the chain, which visits `slots`, with
    /// slot k moved to slot `places[k - 1]`.
    pub fn moved(&self, slots: &[usize], places: &[usize]) -> File {
        let inputs = self.counts[0];
        let wire = |wire: u32| match wire.checked_sub(inputs) {
            Some(above) => inputs + places[above as usize] as u32 - 1,
            None => wire,
        };
        let mut file = self.clone();
        for (gate, place) in self.gates.iter().zip(places) {
            file.gates[place - 1] = Gate {
                a: wire(gate.a),
                b: wire(gate.b),
                ..*gate
            };
        }
        file.outputs = self.outputs.iter().map(|&output| wire(output)).collect();
        file.link(
            &slots
                .iter()
                .map(|slot| places[slot - 1])
                .collect::<Vec<_>>(),
        );
        file
    }
}

/// A legal file with the least I, O and G that have this number of gates, all
/// INV of input 0, in slot order.
pub fn row_of_gates(gates: usize) -> File {
    let gate = Gate {
        kind: INV,
        a: 0,
        b: 0,
        next: 0,
    };
    let mut file = File {
        counts: [1, 1, gates as u32],
        head: 0,
        outputs: vec![0],
        gates: vec![gate; gates],
    };
    file.link(&(1..=gates).collect::<Vec<_>>());
    file
}

/// A legal file of sizes [I, O, G] whose chain visits `slots` in this order.
pub fn legal(random: &mut Random, sizes: [usize; 3], slots: &[usize]) -> File {
    let [inputs, outputs, gates] = sizes;
    let mut file = row_of_gates(gates);
    file.counts = sizes.map(|size| size as u32);
    file.link(slots);
    let mut written: Vec<u32> = (0..inputs as u32).collect();
    for slot in slots {
        let gate = &mut file.gates[slot - 1];
        gate.kind = random.pick(&[XOR, AND, INV]);
        gate.a = a_wire(random, &written);
        gate.b = match gate.kind {
            INV => 0,
            _ => a_wire(random, &written),
        };
        written.push((inputs + slot - 1) as u32);
    }
    let wires = random.from_to(1, written.len());
    let outputs = (0..outputs).map(|_| random.below(wires) as u32);
    file.outputs = outputs.collect();
    file
}

/// One of the written wires, often a late one.
fn a_wire(random: &mut Random, written: &[u32]) -> u32 {
    let late = written.len().min(8);
    match random.below(2) {
        0 => random.pick(written),
        _ => random.pick(&written[written.len() - late..]),
    }
}

/// Sizes within the limits, mostly small ones; sometimes no gates.
pub fn any_sizes(random: &mut Random) -> [usize; 3] {
    let most = match random.below(400) {
        0 => [512, 256, 4096],
        1..=30 => [512, 256, 300],
        31..=200 => [40, 20, 40],
        _ => [4, 4, 5],
    };
    let gates = match random.below(20) {
        0 => 0,
        _ => random.from_to(0, most[2]),
    };
    [
        random.from_to(1, most[0]),
        random.from_to(1, most[1]),
        gates,
    ]
}

/// Slots in order, in the other order, or in any order.
pub fn any_slots(random: &mut Random, gates: usize) -> Vec<usize> {
    match random.below(6) {
        0 => (1..=gates).collect(),
        1 => (1..=gates).rev().collect(),
        _ => random.order(gates),
    }
}

/// The bytes of `file`, whose chain visits `slots`, with one damage or two.
pub fn damaged(random: &mut Random, file: &File, slots: &[usize]) -> Vec<u8> {
    let kinds = [(1, 0), (1, 0), (1, 0), (0, 1), (2, 0), (1, 1)];
    let (in_fields, in_bytes) = random.pick(&kinds);
    let mut file = file.clone();
    for _ in 0..in_fields {
        random.pick(&FIELD_DAMAGES)(&mut file, slots, random);
    }
    let mut bytes = file.bytes();
    for _ in 0..in_bytes {
        bytes = random.pick(&BYTE_DAMAGES)(bytes, random);
    }
    bytes
}

type FieldDamage = fn(&mut File, &[usize], &mut Random);
type ByteDamage = fn(Vec<u8>, &mut Random) -> Vec<u8>;

const FIELD_DAMAGES: [FieldDamage; 16] = [
    count_out_of_limits,
    another_count,
    another_kind,
    a_high_byte,
    inv_with_b,
    cycle,
    two_chains,
    early_end,
    left_out,
    past_the_end,
    another_head,
    reads_itself,
    reads_later,
    reads_no_wire,
    reads_any_wire,
    output_no_wire,
];

const BYTE_DAMAGES: [ByteDamage; 3] = [flip, cut, longer];

fn flip(mut bytes: Vec<u8>, random: &mut Random) -> Vec<u8> {
    let place = random.below(bytes.len());
    bytes[place] ^= 1 << random.below(8);
    bytes
}

/// Often one byte less.
fn cut(mut bytes: Vec<u8>, random: &mut Random) -> Vec<u8> {
    let len = random.below(bytes.len());
    bytes.truncate(random.pick(&[len, bytes.len() - 1]));
    bytes
}

fn longer(bytes: Vec<u8>, random: &mut Random) -> Vec<u8> {
    let more = random.pick(&[1, 1, 2, 16, 65_536]);
    [bytes, random.bytes(more)].concat()
}

fn count_out_of_limits(file: &mut File, _: &[usize], random: &mut Random) {
    let which = random.below(3);
    file.counts[which] = match which {
        0 => random.pick(&[0, 513, 514, 65_536 + 1, 1 << 31, u32::MAX]),
        1 => random.pick(&[0, 257, 258, 65_536 + 1, 1 << 31, u32::MAX]),
        _ => random.pick(&[100_001, 100_002, 1 << 17, 1 << 28, 1 << 31, u32::MAX]),
    };
}

/// One more or less; more inputs move the wires that the gates write.
fn another_count(file: &mut File, _: &[usize], random: &mut Random) {
    let count = &mut file.counts[random.below(3)];
    *count = match random.below(2) {
        0 => count.wrapping_sub(1),
        _ => count.wrapping_add(1),
    };
}

/// Any gate. A file without gates gets none.
fn any_gate<'a>(file: &'a mut File, random: &mut Random) -> Option<&'a mut Gate> {
    let count = file.gates.len();
    (count > 0).then(|| &mut file.gates[random.below(count)])
}

fn another_kind(file: &mut File, _: &[usize], random: &mut Random) {
    if let Some(gate) = any_gate(file, random) {
        gate.kind = random.pick(&[0, 4, 5, 0x81, 0x82, 0xff, u32::MAX]);
    }
}

/// Another byte of the kind than the lowest.
fn a_high_byte(file: &mut File, _: &[usize], random: &mut Random) {
    if let Some(gate) = any_gate(file, random) {
        gate.kind |= (random.from_to(1, 255) as u32) << random.pick(&[8, 16, 24]);
    }
}

fn inv_with_b(file: &mut File, _: &[usize], random: &mut Random) {
    if let Some(gate) = any_gate(file, random) {
        gate.kind = INV;
        gate.b = random.pick(&[1, 2, 256, 65_535, 65_536, u32::MAX]);
    }
}

/// A place on the chain that has a place after it.
fn inner(slots: &[usize], random: &mut Random) -> Option<usize> {
    (slots.len() > 1).then(|| random.below(slots.len() - 1))
}

/// The chain visits each slot once, but does not end.
fn cycle(file: &mut File, slots: &[usize], random: &mut Random) {
    if let Some(last) = slots.last() {
        file.gates[last - 1].next = random.pick(slots) as u32;
    }
}

/// The first part of the chain ends; the rest is a ring of its own.
fn two_chains(file: &mut File, slots: &[usize], random: &mut Random) {
    if let Some(place) = inner(slots, random) {
        file.gates[slots[place] - 1].next = 0;
        let last = slots[slots.len() - 1];
        file.gates[last - 1].next = slots[place + 1] as u32;
    }
}

fn early_end(file: &mut File, slots: &[usize], random: &mut Random) {
    if let Some(place) = inner(slots, random) {
        file.gates[slots[place] - 1].next = 0;
    }
}

/// One slot is passed over.
fn left_out(file: &mut File, slots: &[usize], random: &mut Random) {
    if let Some(place) = inner(slots, random) {
        let passed = slots[place + 1];
        file.gates[slots[place] - 1].next = file.gates[passed - 1].next;
    }
}

fn past_the_end(file: &mut File, _: &[usize], random: &mut Random) {
    let first = file.gates.len() + 1;
    let link = random.pick(&[first, first + 1, 100_001, 1 << 31, 0xffff_ffff]) as u32;
    if random.once_in(4) {
        file.head = link;
    } else if let Some(gate) = any_gate(file, random) {
        gate.next = link;
    }
}

fn another_head(file: &mut File, _: &[usize], random: &mut Random) {
    let count = file.gates.len().max(1);
    file.head = random.from_to(0, count) as u32;
}

/// Sets a wire that the gate in `slot` reads.
fn set_wire(file: &mut File, slot: usize, wire: usize, random: &mut Random) {
    let gate = &mut file.gates[slot - 1];
    if gate.kind == INV || random.once_in(2) {
        gate.a = wire as u32;
    } else {
        gate.b = wire as u32;
    }
}

fn reads_itself(file: &mut File, slots: &[usize], random: &mut Random) {
    if !slots.is_empty() {
        let slot = random.pick(slots);
        let wire = file.counts[0] as usize + slot - 1;
        set_wire(file, slot, wire, random);
    }
}

/// A gate reads what a later gate on the chain writes.
fn reads_later(file: &mut File, slots: &[usize], random: &mut Random) {
    if let Some(place) = inner(slots, random) {
        let later = random.from_to(place + 1, slots.len() - 1);
        let wire = file.counts[0] as usize + slots[later] - 1;
        set_wire(file, slots[place], wire, random);
    }
}

fn reads_no_wire(file: &mut File, slots: &[usize], random: &mut Random) {
    if !slots.is_empty() {
        let wires = file.counts[0] as usize + file.gates.len();
        let wire = random.pick(&[wires, wires + 1, 1 << 16, 1 << 31, 0xffff_ffff]);
        set_wire(file, random.pick(slots), wire, random);
    }
}

/// May be a legal file again.
fn reads_any_wire(file: &mut File, slots: &[usize], random: &mut Random) {
    if !slots.is_empty() {
        let wires = file.counts[0] as usize + file.gates.len();
        let wire = random.below(wires + 1);
        set_wire(file, random.pick(slots), wire, random);
    }
}

fn output_no_wire(file: &mut File, _: &[usize], random: &mut Random) {
    let wires = file.counts[0] as usize + file.gates.len();
    let place = random.below(file.outputs.len());
    file.outputs[place] = random.pick(&[wires, wires, wires + 1, 1 << 31, 0xffff_ffff]) as u32;
}

#[cfg(test)]
mod tests {
    use super::*;

    #[test]
    fn bytes_of_a_file() {
        let file = File {
            counts: [2, 1, 1],
            head: 1,
            outputs: vec![2],
            gates: vec![Gate {
                kind: AND,
                a: 0,
                b: 1,
                next: 0,
            }],
        };
        assert_eq!(file.bytes(), K);
        let old = [2, 0, 1, 0, 1, 0, 1, 0, 2, 0, 2, 0, 0, 0, 1, 0, 0, 0];
        assert_eq!(file.old_bytes(), old);
    }

    #[test]
    fn a_file_of_its_bytes() {
        let file = File::of(&FIVE);
        assert_eq!(file.bytes(), FIVE);
        assert_eq!(file.chain(), [3, 1, 4, 2, 5]);
    }

    #[test]
    fn each_fault_of_five_is_one() {
        assert!(reference::circuit::read(&FIVE).is_ok());
        for (refusal, file) in faults_of_five() {
            assert_eq!(reference::circuit::read(&file), Err(refusal));
        }
    }

    #[test]
    fn legal_files_are_read() {
        let mut random = Random::new(1);
        for _ in 0..300 {
            let sizes = any_sizes(&mut random);
            let slots = any_slots(&mut random, sizes[2]);
            let file = legal(&mut random, sizes, &slots);
            let read = reference::circuit::read(&file.bytes()).expect("a legal file");
            assert_eq!([read.inputs, read.outputs, read.gates], sizes);
        }
    }

    /// Slot 1 is NOT x, slot 2 reads it; moved to slots 2 and 1.
    #[test]
    fn a_moved_file() {
        let mut file = row_of_gates(2);
        file.gates[1].a = 1;
        file.outputs = vec![2];
        let moved = file.moved(&[1, 2], &[2, 1]);
        let gates = moved.gates.iter().map(|gate| [gate.a, gate.next]);
        assert_eq!(gates.collect::<Vec<_>>(), [[2, 0], [0, 1]]);
        assert_eq!((moved.head, &moved.outputs[..]), (2, &[1][..]));
    }

    /// On a file with gates, each of these damages has its own refusal.
    #[test]
    fn each_damage_is_one() {
        let known: [(FieldDamage, u32); 13] = [
            (count_out_of_limits, 2),
            (another_kind, 3),
            (a_high_byte, 3),
            (inv_with_b, 3),
            (cycle, 21),
            (two_chains, 20),
            (early_end, 20),
            (left_out, 20),
            (past_the_end, 19),
            (reads_itself, 5),
            (reads_later, 5),
            (reads_no_wire, 5),
            (output_no_wire, 5),
        ];
        let mut random = Random::new(2);
        for (damage, refusal) in known.iter().cycle().take(1300) {
            let slots = random.order(7);
            let mut file = legal(&mut random, [3, 3, 7], &slots);
            damage(&mut file, &slots, &mut random);
            assert_eq!(reference::circuit::read(&file.bytes()), Err(*refusal));
        }
    }
}
