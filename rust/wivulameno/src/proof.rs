//! Proofs that a circuit gives an output for a witness that stays hidden.

mod counts;
mod length;
mod shared;
mod soundness;

pub use counts::Counts;
pub(crate) use length::oct;
pub use length::{longest_proof, most_opened, proof_len};
pub use shared::{Checked, Place, Places, SharedChecker, Verdict};

use crate::{answer, answer_burned, Refusal, Work};

extern "C" {
    fn wv_prove(
        circuit: *const u8,
        circuit_len: usize,
        witness: *const u8,
        witness_len: usize,
        y: *const u8,
        y_len: usize,
        message: *const u8,
        message_len: usize,
        root: *const u8,
        root_len: usize,
        salt: *const u8,
        salt_len: usize,
        m: u32,
        tau: u32,
        n: u32,
        proof: *mut u8,
        proof_len: usize,
        written: *mut u64,
        work: *mut u8,
        work_len: usize,
    ) -> u32;
    fn wv_check(
        circuit: *const u8,
        circuit_len: usize,
        y: *const u8,
        y_len: usize,
        message: *const u8,
        message_len: usize,
        proof: *const u8,
        proof_len: usize,
        work: *mut u8,
        work_len: usize,
    ) -> u32;
}

/// What is proved: that the prover knows a witness for which the circuit gives
/// y. A proof is bound to all three: the challenge covers the circuit file, y and
/// the message.
#[derive(Clone, Copy, Debug, PartialEq, Eq)]
pub struct Statement<'a> {
    /// The circuit file.
    pub circuit: &'a [u8],
    /// The claimed outputs. All that the checker is to know of the row is in
    /// here.
    pub y: &'a [u8],
    /// Any bytes, up to [`MAX_MESSAGE`](crate::limits::MAX_MESSAGE).
    pub message: &'a [u8],
}

/// As [`prove`], with the length that the C function writes into `written`.
#[allow(clippy::too_many_arguments)]
pub fn prove_into<B: AsMut<[u8]>>(
    statement: Statement,
    witness: &[u8],
    root: &[u8],
    salt: &[u8],
    counts: Counts,
    proof: &mut [u8],
    written: &mut u64,
    work: &mut Work<B>,
) -> Result<(), Refusal> {
    let Statement {
        circuit,
        y,
        message,
    } = statement;
    let work = work.bytes();
    // SAFETY: the slices are valid for their lengths, and `proof`, `written` and
    // `work` overlap no other.
    answer_burned(unsafe {
        wv_prove(
            circuit.as_ptr(),
            circuit.len(),
            witness.as_ptr(),
            witness.len(),
            y.as_ptr(),
            y.len(),
            message.as_ptr(),
            message.len(),
            root.as_ptr(),
            root.len(),
            salt.as_ptr(),
            salt.len(),
            counts.m,
            counts.tau,
            counts.n,
            proof.as_mut_ptr(),
            proof.len(),
            written,
            work.as_mut_ptr(),
            work.len(),
        )
    })
}

/// Writes a proof to the start of `proof` and gives its length. The room that is
/// asked for is [`longest_proof`].
///
/// The root is 16 random bytes, drawn from a shelf: a new root for each call,
/// also after a refused one. Two proofs from one root can show the witness.
///
/// The salt is 32 random bytes, new ones for each proof. It is no secret: it stands in the
/// proof. Every hash that makes nodes, seeds, tapes and commitments takes it, so that one
/// search cannot serve against the proofs of two salts.
///
/// Refuses with 1, 2, 3, 19, 20, 21 or 5 for the circuit, 6 for the work buffer, 8 for
/// the counts, 6 for a length, 7 for an unused bit, 10 if the circuit does not give y
/// for the witness.
pub fn prove<B: AsMut<[u8]>>(
    statement: Statement,
    witness: &[u8],
    root: &[u8],
    salt: &[u8],
    counts: Counts,
    proof: &mut [u8],
    work: &mut Work<B>,
) -> Result<usize, Refusal> {
    let mut len = 0;
    prove_into(
        statement, witness, root, salt, counts, proof, &mut len, work,
    )?;
    Ok(usize::try_from(len).expect("no more than the buffer"))
}

/// Is this a proof of the statement? Any legal counts are accepted: a caller who
/// wants so many bits asks [`Counts::of_proof`] and [`Counts::soundness_bits`].
///
/// Refuses with 1, 2, 3, 19, 20, 21 or 5 for the circuit, 6 for the work buffer, 6 or 7
/// for y and the message, 11 for what does not begin as a proof, and 12, 7, 10 or 13 for a proof
/// that does not hold.
/// With another circuit file, y, message, salt, M, tau or n than the prover's, the
/// challenge is drawn anew, and a proof that does not answer it is refused with the
/// first of these four that is met.
pub fn check<B: AsMut<[u8]>>(
    statement: Statement,
    proof: &[u8],
    work: &mut Work<B>,
) -> Result<(), Refusal> {
    let Statement {
        circuit,
        y,
        message,
    } = statement;
    let work = work.bytes();
    // SAFETY: the slices are valid for their lengths and `work` overlaps no other.
    answer(unsafe {
        wv_check(
            circuit.as_ptr(),
            circuit.len(),
            y.as_ptr(),
            y.len(),
            message.as_ptr(),
            message.len(),
            proof.as_ptr(),
            proof.len(),
            work.as_mut_ptr(),
            work.len(),
        )
    })
}
