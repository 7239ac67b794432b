//! The circuit file: reading and evaluating.

use crate::bits::{get, oct, put, rest_is_zero};
use crate::{u32_at, Refusal};

pub(crate) const XOR: usize = 1;
pub(crate) const AND: usize = 2;
pub(crate) const INV: usize = 3;

/// The limits on I, O and G.
pub(crate) const MOST_INPUTS: usize = 512;
pub(crate) const MOST_OUTPUTS: usize = 256;
pub(crate) const MOST_GATES: usize = 100_000;

/// I, O, G and A.
#[derive(Clone, Copy, Debug, PartialEq, Eq)]
pub struct Sizes {
    pub inputs: usize,
    pub outputs: usize,
    pub gates: usize,
    pub ands: usize,
}

/// One record as it stands.
#[derive(Clone, Copy)]
pub(crate) struct Record {
    pub kind: usize,
    pub a: usize,
    pub b: usize,
    pub next: usize,
}

/// What a file says, field by field.
pub(crate) struct Fields {
    pub inputs: usize,
    pub outputs: Vec<usize>,
    pub head: usize,
    pub records: Vec<Record>,
}

/// A circuit that was read: gates in chain order, each with the wire it writes.
pub(crate) struct Circuit {
    pub inputs: usize,
    pub outputs: Vec<usize>,
    pub gates: Vec<(Record, usize)>,
}

/// Why a file is refused: the number, and for a chain the slot that holds the
/// offending link. The head counts as slot 0; so does every other refusal.
pub(crate) struct Fault {
    pub number: Refusal,
    pub slot: usize,
}

impl From<Refusal> for Fault {
    fn from(number: Refusal) -> Fault {
        Fault { number, slot: 0 }
    }
}

/// Reads a circuit file: refusals 1, 2, 3, 19, 20, 21 and 5.
pub fn read(file: &[u8]) -> Result<Sizes, Refusal> {
    legal(file).map(|circuit| circuit.sizes())
}

/// The slot that holds the offending link where reading is refused with 19, 20 or
/// 21, and 0 for every other reading. A slot of 0 is also the head.
pub fn fault_slot(file: &[u8]) -> usize {
    reading(file).err().map_or(0, |fault| fault.slot)
}

/// Fills `y` with the outputs for `witness`: the refusals of the circuit, 6 and 7.
pub fn evaluate(file: &[u8], witness: &[u8], y: &mut [u8]) -> Result<(), Refusal> {
    let circuit = legal(file)?;
    if witness.len() != oct(circuit.inputs) || y.len() != oct(circuit.outputs.len()) {
        return Err(6);
    }
    if !rest_is_zero(witness, circuit.inputs) {
        return Err(7);
    }
    y.copy_from_slice(&circuit.output(witness));
    Ok(())
}

/// The circuit of a file, or the number of the refusal alone.
pub(crate) fn legal(file: &[u8]) -> Result<Circuit, Refusal> {
    reading(file).map_err(|fault| fault.number)
}

/// The fields of a file that is legal.
pub(crate) fn legal_fields(file: &[u8]) -> Result<Fields, Refusal> {
    let fields = fields(file)?;
    match fields.circuit() {
        Ok(_) => Ok(fields),
        Err(fault) => Err(fault.number),
    }
}

/// The circuit of a file. Each test is made over the whole file before the next.
fn reading(file: &[u8]) -> Result<Circuit, Fault> {
    fields(file)?.circuit()
}

/// The fields of a file whose length is what its header asks for: refusals 1 and 2.
fn fields(file: &[u8]) -> Result<Fields, Refusal> {
    if file.len() < 16 {
        return Err(1);
    }
    let [inputs, outputs, gates, head] = [0, 4, 8, 12].map(|place| u32_at(file, place));
    let few = inputs <= MOST_INPUTS && outputs <= MOST_OUTPUTS && gates <= MOST_GATES;
    if !few || inputs == 0 || outputs == 0 {
        return Err(2);
    }
    if file.len() != 16 + 4 * outputs + 16 * gates {
        return Err(1);
    }
    let (outputs, records) = file[16..].split_at(4 * outputs);
    Ok(Fields {
        inputs,
        outputs: outputs.chunks(4).map(|wire| u32_at(wire, 0)).collect(),
        head,
        records: records.chunks(16).map(Record::of).collect(),
    })
}

impl Fields {
    /// The circuit, if its records are in form, its chain is right and its wires are
    /// written: refusals 3, 19, 20, 21 and 5.
    pub fn circuit(&self) -> Result<Circuit, Fault> {
        if !self.records.iter().all(Record::is_in_form) {
            return Err(3.into());
        }
        let slots = chain(self.head, &self.records)?;
        // Slot k writes wire I + k - 1.
        let gate = |slot: &usize| (self.records[slot - 1], self.inputs + slot - 1);
        let circuit = Circuit {
            inputs: self.inputs,
            outputs: self.outputs.clone(),
            gates: slots.iter().map(gate).collect(),
        };
        match circuit.wires_are_written() {
            true => Ok(circuit),
            false => Err(5.into()),
        }
    }

    /// The file with these fields.
    pub fn bytes(&self) -> Vec<u8> {
        let counts = [self.inputs, self.outputs.len(), self.records.len()];
        let mut words = counts.to_vec();
        words.push(self.head);
        words.extend(&self.outputs);
        for Record { kind, a, b, next } in &self.records {
            words.extend([kind, a, b, next]);
        }
        let bytes = words.iter().map(|&word| (word as u32).to_le_bytes());
        bytes.flatten().collect()
    }
}

impl Record {
    fn of(bytes: &[u8]) -> Record {
        let [kind, a, b, next] = [0, 4, 8, 12].map(|place| u32_at(bytes, place));
        Record { kind, a, b, next }
    }

    fn is_in_form(&self) -> bool {
        matches!(self.kind, XOR | AND) || (self.kind == INV && self.b == 0)
    }

    /// The wires that the gate reads.
    fn reads(&self) -> Vec<usize> {
        match self.kind {
            INV => vec![self.a],
            _ => vec![self.a, self.b],
        }
    }
}

/// The slots from `head` on, if there are G of them and the chain ends there; else
/// the first fault on the way. A slot that is visited twice counts twice; a chain
/// on which one is never ends, so no chain that is accepted has one.
fn chain(head: usize, records: &[Record]) -> Result<Vec<usize>, Fault> {
    let gates = records.len();
    let mut slots = vec![];
    let (mut holder, mut link) = (0, head);
    loop {
        let number = match (link, slots.len() == gates) {
            (link, _) if link > gates => 19,
            (0, true) => return Ok(slots),
            (0, false) => 20,
            (_, true) => 21,
            (slot, false) => {
                slots.push(slot);
                (holder, link) = (slot, records[slot - 1].next);
                continue;
            }
        };
        let slot = holder;
        return Err(Fault { number, slot });
    }
}

impl Circuit {
    pub fn sizes(&self) -> Sizes {
        let ands = self.gates.iter().filter(|(gate, _)| gate.kind == AND);
        Sizes {
            inputs: self.inputs,
            outputs: self.outputs.len(),
            gates: self.gates.len(),
            ands: ands.count(),
        }
    }

    pub fn wires(&self) -> usize {
        self.inputs + self.gates.len()
    }

    /// Does each gate read only wires written by then, and is each output a wire?
    fn wires_are_written(&self) -> bool {
        let mut written = vec![false; self.wires()];
        written[..self.inputs].fill(true);
        for (gate, wire) in &self.gates {
            let is_written = |wire: usize| written.get(wire) == Some(&true);
            if !gate.reads().into_iter().all(is_written) {
                return false;
            }
            written[*wire] = true;
        }
        self.outputs.iter().all(|&wire| wire < self.wires())
    }

    /// The output for a witness.
    pub fn output(&self, witness: &[u8]) -> Vec<u8> {
        let values = self.values(witness);
        let mut y = vec![0; oct(self.outputs.len())];
        for (place, &wire) in self.outputs.iter().enumerate() {
            put(&mut y, place, values[wire]);
        }
        y
    }

    /// The value of every wire.
    fn values(&self, witness: &[u8]) -> Vec<bool> {
        let mut values = vec![false; self.wires()];
        for (wire, value) in values[..self.inputs].iter_mut().enumerate() {
            *value = get(witness, wire);
        }
        for (gate, wire) in &self.gates {
            values[*wire] = match gate.kind {
                XOR => values[gate.a] ^ values[gate.b],
                AND => values[gate.a] & values[gate.b],
                _ => !values[gate.a],
            };
        }
        values
    }
}

#[cfg(test)]
mod tests {
    use super::*;
    use crate::examples::{file, K};

    /// Places of fields in K.
    const INPUTS: usize = 0;
    const OUTPUTS: usize = 4;
    const GATES: usize = 8;
    const OUTPUT: usize = 16;
    const KIND: usize = 20;
    const A: usize = 24;
    const B: usize = 28;
    const NEXT: usize = 32;

    /// K with other fields at these places.
    fn k_with(fields: &[(usize, u32)]) -> [u8; 36] {
        let mut file = K;
        for (place, field) in fields {
            file[*place..place + 4].copy_from_slice(&field.to_le_bytes());
        }
        file
    }

    fn sizes(inputs: usize, outputs: usize, gates: usize, ands: usize) -> Sizes {
        Sizes {
            inputs,
            outputs,
            gates,
            ands,
        }
    }

    #[test]
    fn m1_k_is_read() {
        let k = [
            2, 0, 0, 0, 1, 0, 0, 0, 1, 0, 0, 0, 1, 0, 0, 0, // I, O, G, head
            2, 0, 0, 0, // the output
            2, 0, 0, 0, 0, 0, 0, 0, 1, 0, 0, 0, 0, 0, 0, 0, // slot 1
        ];
        assert_eq!(K, k);
        assert_eq!(read(&k), Ok(sizes(2, 1, 1, 1)));
    }

    #[test]
    fn m2_a_record_that_follows_itself() {
        let file = k_with(&[(NEXT, 1)]);
        assert_eq!((read(&file), fault_slot(&file)), (Err(21), 1));
    }

    #[test]
    fn m3_a_gate_that_reads_itself() {
        assert_eq!(read(&k_with(&[(B, 2)])), Err(5));
    }

    #[test]
    fn m4_the_empty_input() {
        assert_eq!(read(&[]), Err(1));
    }

    #[test]
    fn m5_no_gates() {
        let file: [u8; 20] = file([1, 1, 0, 0, 0]);
        assert_eq!(read(&file), Ok(sizes(1, 1, 0, 0)));
    }

    /// Truth tables; INV reads its first wire.
    #[test]
    fn the_three_kinds() {
        let table = |kind, b| {
            let file = k_with(&[(KIND, kind), (B, b)]);
            [0, 1, 2, 3].map(|witness| {
                let mut y = [0xff];
                evaluate(&file, &[witness], &mut y).map(|()| y[0])
            })
        };
        assert_eq!(table(1, 1), [Ok(0), Ok(1), Ok(1), Ok(0)]);
        assert_eq!(table(2, 1), [Ok(0), Ok(0), Ok(0), Ok(1)]);
        assert_eq!(table(3, 0), [Ok(1), Ok(0), Ok(1), Ok(0)]);
    }

    /// Every byte of a field counts, also that of the kind.
    #[test]
    fn fields_have_32_bits() {
        assert_eq!(read(&k_with(&[(KIND, 2 + 256)])), Err(3));
        for bit in [16, 24, 31] {
            let high = 1 << bit;
            let known = [
                ((INPUTS, 2 + high), 2),
                ((OUTPUTS, 1 + high), 2),
                ((GATES, 1 + high), if bit == 16 { 1 } else { 2 }),
                ((OUTPUT, 2 + high), 5),
                ((KIND, 2 + high), 3),
                ((A, high), 5),
                ((B, 1 + high), 5),
                ((NEXT, high), 19),
            ];
            for (field, number) in known {
                assert_eq!(read(&k_with(&[field])), Err(number), "{field:?}");
            }
        }
        assert_eq!(read(&k_with(&[(KIND, 3)])), Err(3));
        assert_eq!(read(&k_with(&[(KIND, 3), (B, 1 << 31)])), Err(3));
    }

    /// 1 under 16 bytes comes before 2, which comes before 1 for the whole length.
    #[test]
    fn lengths_and_limits() {
        let none = k_with(&[(INPUTS, 0)]);
        assert_eq!(read(&none[..15]), Err(1));
        assert_eq!(read(&none[..16]), Err(2));
        assert_eq!(read(&K[..16]), Err(1));
        assert_eq!(read(&K[..35]), Err(1));
        assert_eq!(read(&[&K[..], &[0]].concat()), Err(1));
    }

    /// INV gates of input 0, in slot order.
    fn row_of_gates(gates: u32) -> Vec<u8> {
        let mut words = vec![1, 1, gates, 1, 0];
        for slot in 1..=gates {
            words.extend([3, 0, 0, (slot + 1) % (gates + 1)]);
        }
        words.iter().flat_map(|word| word.to_le_bytes()).collect()
    }

    #[test]
    fn the_most_gates() {
        let most = row_of_gates(100_000);
        assert_eq!(read(&most), Ok(sizes(1, 1, 100_000, 0)));
        assert_eq!(read(&row_of_gates(100_001)), Err(2));
    }

    /// Three gates in the order 2, 3, 1: wire 3 is !x, wire 4 is !!x, wire 2 is
    /// their XOR with y.
    #[test]
    fn a_chain_out_of_slot_order() {
        let file: [u8; 76] = file([
            2, 3, 3, 2, 2, 3, 3, // head and outputs
            1, 4, 1, 0, // slot 1
            3, 0, 0, 3, // slot 2
            3, 3, 0, 1, // slot 3
        ]);
        assert_eq!(read(&file), Ok(sizes(2, 3, 3, 0)));
        let mut y = [0xff];
        for (witness, expected) in [(0, 6), (1, 1), (2, 7), (3, 0)] {
            assert_eq!(evaluate(&file, &[witness], &mut y), Ok(()));
            assert_eq!(y, [expected]);
        }
    }

    /// Three INV gates of input 0: the head, the three links, and what they lead to.
    #[test]
    fn the_first_fault_of_a_chain() {
        let known = [
            ([1, 3, 2, 0], (20, 3)),
            ([2, 0, 1, 3], (20, 1)),
            ([0, 2, 3, 0], (20, 0)),
            ([4, 2, 3, 0], (19, 0)),
            ([1, 2, 4, 0], (19, 2)),
            ([1, 2, 3, 4], (19, 3)),
            ([1, 2, 3, 1], (21, 3)),
            ([1, 2, 1, 0], (21, 1)),
            ([3, 1, 2, 3], (21, 3)),
        ];
        for ([head, x, y, z], (number, slot)) in known {
            let file: [u8; 68] = file([
                1, 1, 3, head, 0, // head and output
                3, 0, 0, x, 3, 0, 0, y, 3, 0, 0, z, // slots 1 to 3
            ]);
            let found = (read(&file), fault_slot(&file));
            assert_eq!(found, (Err(number), slot), "{head}, {x}, {y}, {z}");
        }
    }

    #[test]
    fn no_slot_for_other_refusals() {
        let others = [
            (1, vec![]),
            (2, k_with(&[(INPUTS, 0)]).to_vec()),
            (3, k_with(&[(KIND, 4)]).to_vec()),
            (5, k_with(&[(B, 2)]).to_vec()),
        ];
        for (number, file) in others {
            assert_eq!((read(&file), fault_slot(&file)), (Err(number), 0));
        }
        assert_eq!(fault_slot(&K), 0);
    }

    #[test]
    fn lengths_before_unused_bits() {
        let mut y = [0x55];
        assert_eq!(evaluate(&K, &[4, 0], &mut y), Err(6));
        assert_eq!(evaluate(&K, &[4], &mut []), Err(6));
        assert_eq!(evaluate(&K, &[4], &mut y), Err(7));
        assert_eq!(y, [0x55]);
    }
}
