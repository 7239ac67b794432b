//! Circuit files. `include/wivulameno.h` has their layout, and that of the texts
//! and of the old files that can be converted to one, and says how circuits are built
//! of others.
//!
//! Every function that is lent a circuit, but [`fault_slot`], refuses it with 1, 2, 3,
//! 19, 20, 21 or 5.

mod building;

pub use building::{join, join_into, join_to_vec};
pub use building::{one_of, one_of_into, one_of_to_vec};
pub use building::{small, small_into, small_to_vec};

use crate::limits::{MAX_CIRCUIT, MAX_GATES, MAX_INPUTS, MAX_OUTPUTS};
use crate::proof::oct;
use crate::{answer, answer_burned, Refusal};

extern "C" {
    fn wv_read(circuit: *const u8, circuit_len: usize, sizes: *mut [u32; 4]) -> u32;
    fn wv_fault_slot(circuit: *const u8, circuit_len: usize) -> u32;
    fn wv_evaluate(
        circuit: *const u8,
        circuit_len: usize,
        witness: *const u8,
        witness_len: usize,
        y: *mut u8,
        y_len: usize,
    ) -> u32;
    fn wv_bristol(
        text: *const u8,
        text_len: usize,
        out: *mut u8,
        out_len: usize,
        written: *mut u64,
    ) -> u32;
    fn wv_upgrade(
        old: *const u8,
        old_len: usize,
        out: *mut u8,
        out_len: usize,
        written: *mut u64,
    ) -> u32;
    fn wv_upgrade_slot(old: *const u8, old_len: usize) -> u32;
}

/// How large a circuit is.
#[derive(Clone, Copy, Debug, PartialEq, Eq, Hash)]
pub struct Sizes {
    /// I, the inputs: the bits of a witness.
    pub inputs: u32,
    /// O, the outputs: the bits of y.
    pub outputs: u32,
    /// G, the gates.
    pub gates: u32,
    /// A, the AND gates among them.
    pub ands: u32,
}

impl Sizes {
    /// The bytes of a witness.
    pub const fn witness_len(self) -> usize {
        oct(self.inputs)
    }

    /// The bytes of y.
    pub const fn y_len(self) -> usize {
        oct(self.outputs)
    }

    /// The least length of a [`Work`](crate::Work) buffer: 64 (I + G) + 4,096 bytes.
    pub const fn work_len(self) -> usize {
        64 * (self.inputs as usize + self.gates as usize) + 4096
    }

    /// The bytes of a circuit file with these sizes: 16 + 4 O + 16 G.
    pub const fn circuit_len(self) -> usize {
        16 + 4 * self.outputs as usize + 16 * self.gates as usize
    }

    /// Can a circuit have these sizes?
    pub(crate) const fn are_legal(self) -> bool {
        let inputs = 1 <= self.inputs && self.inputs <= MAX_INPUTS;
        let outputs = 1 <= self.outputs && self.outputs <= MAX_OUTPUTS;
        let gates = self.ands <= self.gates && self.gates <= MAX_GATES;
        inputs && outputs && gates
    }
}

/// The sizes of `circuit`. Refuses it as [above](self).
pub fn sizes(circuit: &[u8]) -> Result<Sizes, Refusal> {
    let [inputs, outputs, gates, ands] = read(circuit)?;
    Ok(Sizes {
        inputs,
        outputs,
        gates,
        ands,
    })
}

/// Writes I, O, G and A of `circuit` into `sizes`, as the C function does.
pub fn read_into(circuit: &[u8], sizes: &mut [u32; 4]) -> Result<(), Refusal> {
    // SAFETY: both are valid for their lengths and do not overlap.
    answer(unsafe { wv_read(circuit.as_ptr(), circuit.len(), sizes) })
}

/// I, O, G and A of `circuit`; [`sizes`] gives them names. Refuses it as
/// [above](self).
pub fn read(circuit: &[u8]) -> Result<[u32; 4], Refusal> {
    let mut sizes = [0; 4];
    read_into(circuit, &mut sizes)?;
    Ok(sizes)
}

/// Where the chain of `circuit` goes wrong: the slot that holds the offending link,
/// 0 for the head, if reading is refused with 19, 20 or 21
/// ([`Refusal::is_of_chain`]). For every other reading it is 0.
///
/// ```
/// use wivulameno::circuit::{fault_slot, read};
/// use wivulameno::Refusal;
///
/// // One gate, in slot 1, whose link leads to slot 1 again.
/// let fields = [2, 1, 1, 1, 2, 2, 0, 1, 1];
/// let circuit = fields.map(u32::to_le_bytes).concat();
/// assert_eq!(read(&circuit), Err(Refusal::ChainLong));
/// assert_eq!(fault_slot(&circuit), 1);
/// ```
pub fn fault_slot(circuit: &[u8]) -> u32 {
    // SAFETY: the slice is valid for its length.
    unsafe { wv_fault_slot(circuit.as_ptr(), circuit.len()) }
}

/// Fills `y` with the outputs of `circuit` for `witness`. Refuses the circuit as
/// [above](self), then with 6 for a length that is not [`Sizes::witness_len`] or
/// [`Sizes::y_len`], 7 for an unused bit of the witness.
pub fn evaluate(circuit: &[u8], witness: &[u8], y: &mut [u8]) -> Result<(), Refusal> {
    // SAFETY: the slices are valid for their lengths and `y` overlaps no other.
    answer_burned(unsafe {
        wv_evaluate(
            circuit.as_ptr(),
            circuit.len(),
            witness.as_ptr(),
            witness.len(),
            y.as_mut_ptr(),
            y.len(),
        )
    })
}

/// As [`from_bristol`], with the length that the C function writes into `written`.
pub fn from_bristol_into(text: &[u8], out: &mut [u8], written: &mut u64) -> Result<(), Refusal> {
    // SAFETY: the slices are valid for their lengths, and `out` and `written`
    // overlap no other.
    answer(unsafe {
        wv_bristol(
            text.as_ptr(),
            text.len(),
            out.as_mut_ptr(),
            out.len(),
            written,
        )
    })
}

/// Converts a text in the published format Bristol Fashion: writes the circuit file
/// to the start of `out` and gives its length. The bytes behind it stay.
/// [`MAX_CIRCUIT`] bytes are room for every circuit, and [`from_bristol_to_vec`]
/// has that room.
///
/// The circuit evaluates as the text does, with the inputs of all groups one after
/// the other, and so the outputs.
///
/// Refuses with 22 for a text that breaks the rules, 23 for a gate that is none of
/// XOR, AND and INV, 24 for sizes beyond the limits: whichever comes first in the
/// order of the lines, on a header line 22 before 24, on a gate line 23 before 22.
/// Then with 6 for an `out` that is too short.
pub fn from_bristol(text: &[u8], out: &mut [u8]) -> Result<usize, Refusal> {
    let mut written = 0;
    from_bristol_into(text, out, &mut written)?;
    Ok(usize::try_from(written).expect("no more than the buffer"))
}

/// The circuit file of a text in Bristol Fashion. Refuses it as [`from_bristol`]
/// does, but never with 6.
///
/// ```
/// use wivulameno::circuit::{evaluate, from_bristol_to_vec};
/// use wivulameno::Refusal;
///
/// // One gate and three wires; two inputs, in a group each; one output.
/// let text = "1 3\n2 1 1\n1 1\n\n2 1 0 1 2 AND\n";
/// let circuit = from_bristol_to_vec(text.as_bytes())?;
/// let mut y = [0];
/// evaluate(&circuit, &[0b11], &mut y)?;
/// assert_eq!(y, [1]);
///
/// let other = text.replace("AND", "OR");
/// assert_eq!(from_bristol_to_vec(other.as_bytes()), Err(Refusal::GateKind));
/// # Ok::<(), Refusal>(())
/// ```
pub fn from_bristol_to_vec(text: &[u8]) -> Result<Vec<u8>, Refusal> {
    let mut circuit = vec![0; MAX_CIRCUIT];
    let len = from_bristol(text, &mut circuit)?;
    circuit.truncate(len);
    Ok(circuit)
}

/// As [`upgrade`], with the length that the C function writes into `written`.
pub fn upgrade_into(old: &[u8], out: &mut [u8], written: &mut u64) -> Result<(), Refusal> {
    // SAFETY: the slices are valid for their lengths, and `out` and `written`
    // overlap no other.
    answer(unsafe {
        wv_upgrade(
            old.as_ptr(),
            old.len(),
            out.as_mut_ptr(),
            out.len(),
            written,
        )
    })
}

/// Converts a circuit file of the old form, whose fields had 16 bits: writes the file
/// of the same circuit, with the same slots, chain and meaning, to the start of `out`
/// and gives its length, which is twice that of the old one. The bytes behind it stay.
///
/// Refuses with 1, 2, 3, 19, 20, 21 or 5 as the old reading did ([`upgrade_slot`] tells
/// the slot), then with 6 for an `out` that is too short.
pub fn upgrade(old: &[u8], out: &mut [u8]) -> Result<usize, Refusal> {
    let mut written = 0;
    upgrade_into(old, out, &mut written)?;
    Ok(usize::try_from(written).expect("no more than the buffer"))
}

/// The circuit file of the same circuit as a file of the old form. Refuses it as
/// [`upgrade`] does, but never with 6.
///
/// ```
/// use wivulameno::circuit::{read, upgrade_to_vec};
/// use wivulameno::Refusal;
///
/// // Two inputs, one output, one gate: wire 2 is wire 0 AND wire 1.
/// let old = [2, 0, 1, 0, 1, 0, 1, 0, 2, 0, 2, 0, 0, 0, 1, 0, 0, 0];
/// assert_eq!(read(&old), Err(Refusal::CircuitSizes));
/// let circuit = upgrade_to_vec(&old)?;
/// assert_eq!(circuit, [2_u32, 1, 1, 1, 2, 2, 0, 1, 0].map(u32::to_le_bytes).concat());
/// # Ok::<(), Refusal>(())
/// ```
pub fn upgrade_to_vec(old: &[u8]) -> Result<Vec<u8>, Refusal> {
    // The file is twice as long as the old one: 16 + 4 O + 16 G for 8 + 2 O + 8 G.
    let mut circuit = vec![0; 2 * old.len()];
    let len = upgrade(old, &mut circuit)?;
    circuit.truncate(len);
    Ok(circuit)
}

/// As [`fault_slot`], for a file of the old form that [`upgrade`] refuses.
pub fn upgrade_slot(old: &[u8]) -> u32 {
    // SAFETY: the slice is valid for its length.
    unsafe { wv_upgrade_slot(old.as_ptr(), old.len()) }
}
