//! Runs of a circuit by n parties, showings and replays: what a proof is made of,
//! for tests and for a closer look. `include/wivulameno.h` has the parts and
//! their lengths. A circuit is refused as [`circuit`](crate::circuit) says, then a
//! [`Work`] buffer that is too short with 6.

use crate::{answer, answer_burned, Refusal, Work};

extern "C" {
    fn wv_prepare(
        circuit: *const u8,
        circuit_len: usize,
        n: u32,
        tapes: *const u8,
        tapes_len: usize,
        corrections: *mut u8,
        corrections_len: usize,
        work: *mut u8,
        work_len: usize,
    ) -> u32;
    fn wv_run(
        circuit: *const u8,
        circuit_len: usize,
        n: u32,
        witness: *const u8,
        witness_len: usize,
        tapes: *const u8,
        tapes_len: usize,
        corrections: *const u8,
        corrections_len: usize,
        masked_inputs: *mut u8,
        masked_inputs_len: usize,
        rows: *mut u8,
        rows_len: usize,
        y: *mut u8,
        y_len: usize,
        work: *mut u8,
        work_len: usize,
    ) -> u32;
    fn wv_show(
        circuit: *const u8,
        circuit_len: usize,
        n: u32,
        p: u32,
        cut: u32,
        witness: *const u8,
        witness_len: usize,
        tapes: *const u8,
        tapes_len: usize,
        shown_tapes: *mut u8,
        shown_tapes_len: usize,
        corrections: *mut u8,
        corrections_len: usize,
        masked_inputs: *mut u8,
        masked_inputs_len: usize,
        row: *mut u8,
        row_len: usize,
        work: *mut u8,
        work_len: usize,
    ) -> u32;
    fn wv_replay(
        circuit: *const u8,
        circuit_len: usize,
        n: u32,
        p: u32,
        tapes: *const u8,
        tapes_len: usize,
        corrections: *const u8,
        corrections_len: usize,
        masked_inputs: *const u8,
        masked_inputs_len: usize,
        row: *const u8,
        row_len: usize,
        y: *const u8,
        y_len: usize,
        rows: *mut u8,
        rows_len: usize,
        work: *mut u8,
        work_len: usize,
    ) -> u32;
}

/// The parts that a run fills.
#[derive(Debug)]
pub struct RunOut<'a> {
    /// I bits.
    pub masked_inputs: &'a mut [u8],
    /// The broadcast rows of n parties, each of A + O bits in bytes of its own.
    pub rows: &'a mut [u8],
    /// O bits.
    pub y: &'a mut [u8],
}

/// The four parts of a showing, to be read.
#[derive(Clone, Copy, Debug)]
pub struct Showing<'a> {
    /// The rows of n parties, each of I + 2A bits in bytes of its own; that of
    /// the hidden party is zero.
    pub tapes: &'a [u8],
    /// A bits, all zero if the last party is hidden.
    pub corrections: &'a [u8],
    /// I bits.
    pub masked_inputs: &'a [u8],
    /// The broadcast row of the hidden party, A + O bits.
    pub row: &'a [u8],
}

/// The four parts of a showing, to be filled; see [`Showing`].
#[derive(Debug)]
pub struct ShowingOut<'a> {
    /// As in [`Showing`].
    pub tapes: &'a mut [u8],
    /// As in [`Showing`].
    pub corrections: &'a mut [u8],
    /// As in [`Showing`].
    pub masked_inputs: &'a mut [u8],
    /// As in [`Showing`].
    pub row: &'a mut [u8],
}

/// Fills `corrections` with those of the tapes of n parties. Refuses with 8, 6, 7
/// after the circuit and the work buffer.
pub fn prepare<B: AsMut<[u8]>>(
    circuit: &[u8],
    n: u32,
    tapes: &[u8],
    corrections: &mut [u8],
    work: &mut Work<B>,
) -> Result<(), Refusal> {
    let work = work.bytes();
    // SAFETY: the slices are valid for their lengths, and `corrections` and `work`
    // overlap no other.
    answer_burned(unsafe {
        wv_prepare(
            circuit.as_ptr(),
            circuit.len(),
            n,
            tapes.as_ptr(),
            tapes.len(),
            corrections.as_mut_ptr(),
            corrections.len(),
            work.as_mut_ptr(),
            work.len(),
        )
    })
}

/// Runs the circuit for `witness` by n parties, with the corrections as lent.
/// Refuses with 8, 6, 7 after the circuit and the work buffer.
pub fn run<B: AsMut<[u8]>>(
    circuit: &[u8],
    n: u32,
    witness: &[u8],
    tapes: &[u8],
    corrections: &[u8],
    out: RunOut,
    work: &mut Work<B>,
) -> Result<(), Refusal> {
    let work = work.bytes();
    // SAFETY: the slices are valid for their lengths, and `work` and the parts of
    // `out` overlap no other.
    answer_burned(unsafe {
        wv_run(
            circuit.as_ptr(),
            circuit.len(),
            n,
            witness.as_ptr(),
            witness.len(),
            tapes.as_ptr(),
            tapes.len(),
            corrections.as_ptr(),
            corrections.len(),
            out.masked_inputs.as_mut_ptr(),
            out.masked_inputs.len(),
            out.rows.as_mut_ptr(),
            out.rows.len(),
            out.y.as_mut_ptr(),
            out.y.len(),
            work.as_mut_ptr(),
            work.len(),
        )
    })
}

/// Fills `out` with the showing that hides party p, cut after `cut` gates.
/// Refuses with 8, 9, 6, 7 after the circuit and the work buffer.
#[allow(clippy::too_many_arguments)]
pub fn show<B: AsMut<[u8]>>(
    circuit: &[u8],
    n: u32,
    p: u32,
    cut: u32,
    witness: &[u8],
    tapes: &[u8],
    out: ShowingOut,
    work: &mut Work<B>,
) -> Result<(), Refusal> {
    let work = work.bytes();
    // SAFETY: the slices are valid for their lengths, and `work` and the parts of
    // `out` overlap no other.
    answer_burned(unsafe {
        wv_show(
            circuit.as_ptr(),
            circuit.len(),
            n,
            p,
            cut,
            witness.as_ptr(),
            witness.len(),
            tapes.as_ptr(),
            tapes.len(),
            out.tapes.as_mut_ptr(),
            out.tapes.len(),
            out.corrections.as_mut_ptr(),
            out.corrections.len(),
            out.masked_inputs.as_mut_ptr(),
            out.masked_inputs.len(),
            out.row.as_mut_ptr(),
            out.row.len(),
            work.as_mut_ptr(),
            work.len(),
        )
    })
}

/// Fills `rows` with the broadcasts of all parties in the run that is shown,
/// whose output must be `y`. Refuses with 8, 9, 6, 7, 10 after the circuit and the
/// work buffer.
pub fn replay<B: AsMut<[u8]>>(
    circuit: &[u8],
    n: u32,
    p: u32,
    showing: Showing,
    y: &[u8],
    rows: &mut [u8],
    work: &mut Work<B>,
) -> Result<(), Refusal> {
    let work = work.bytes();
    // SAFETY: the slices are valid for their lengths, and `rows` and `work` overlap
    // no other.
    answer(unsafe {
        wv_replay(
            circuit.as_ptr(),
            circuit.len(),
            n,
            p,
            showing.tapes.as_ptr(),
            showing.tapes.len(),
            showing.corrections.as_ptr(),
            showing.corrections.len(),
            showing.masked_inputs.as_ptr(),
            showing.masked_inputs.len(),
            showing.row.as_ptr(),
            showing.row.len(),
            y.as_ptr(),
            y.len(),
            rows.as_mut_ptr(),
            rows.len(),
            work.as_mut_ptr(),
            work.len(),
        )
    })
}
