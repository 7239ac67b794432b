//! Circuits that are built of others, or of nothing but their sizes.

use super::{sizes, Sizes};
use crate::limits::{MAX_GATES, MAX_LISTED, MAX_SMALL_CIRCUIT};
use crate::{answer, Refusal};

extern "C" {
    fn wv_join(
        first: *const u8,
        first_len: usize,
        second: *const u8,
        second_len: usize,
        out: *mut u8,
        out_len: usize,
        written: *mut u64,
    ) -> u32;
    fn wv_small(
        inputs: u32,
        outputs: u32,
        gates: u32,
        place: u64,
        out: *mut u8,
        out_len: usize,
        written: *mut u64,
    ) -> u32;
    fn wv_one_of(
        circuit: *const u8,
        circuit_len: usize,
        list: *const u8,
        list_len: usize,
        out: *mut u8,
        out_len: usize,
        written: *mut u64,
    ) -> u32;
}

/// The length that a call has written.
fn len_of(written: u64) -> usize {
    usize::try_from(written).expect("no more than the buffer")
}

/// As [`join`], with the length that the C function writes into `written`.
pub fn join_into(
    first: &[u8],
    second: &[u8],
    out: &mut [u8],
    written: &mut u64,
) -> Result<(), Refusal> {
    // SAFETY: the slices are valid for their lengths, and `out` and `written`
    // overlap no other. The two circuits may overlap: they are only read.
    answer(unsafe {
        wv_join(
            first.as_ptr(),
            first.len(),
            second.as_ptr(),
            second.len(),
            out.as_mut_ptr(),
            out.len(),
            written,
        )
    })
}

/// Joins two statements on one row: of two circuits with the same inputs it writes
/// one, which gives the first's outputs and then the second's, to the start of `out`
/// and gives its length. The bytes behind it stay. A circuit may be joined with itself.
///
/// The file has the sums of the sizes but for the inputs. It is shorter than the two
/// files together by 16 bytes, so their lengths are room for it.
///
/// Refuses the first circuit as [`circuit`](super) says, then the second one, then
/// with 25 if their numbers of inputs differ, 2 if the sums of outputs or gates are
/// beyond the limits, 6 for an `out` that is too short.
pub fn join(first: &[u8], second: &[u8], out: &mut [u8]) -> Result<usize, Refusal> {
    let mut written = 0;
    join_into(first, second, out, &mut written)?;
    Ok(len_of(written))
}

/// The circuit file of two statements on one row. Refuses as [`join`] does, but never
/// with 6.
///
/// ```
/// use wivulameno::circuit::{evaluate, join_to_vec};
/// use wivulameno::Refusal;
///
/// // Two inputs: their AND, and their XOR.
/// let both = [2, 1, 1, 1, 2, 2, 0, 1, 0].map(u32::to_le_bytes).concat();
/// let differ = [2, 1, 1, 1, 2, 1, 0, 1, 0].map(u32::to_le_bytes).concat();
/// let joined = join_to_vec(&both, &differ)?;
/// let mut y = [0];
/// evaluate(&joined, &[0b01], &mut y)?;
/// assert_eq!(y, [0b10]); // not both, and they differ
/// # Ok::<(), Refusal>(())
/// ```
pub fn join_to_vec(first: &[u8], second: &[u8]) -> Result<Vec<u8>, Refusal> {
    let mut circuit = vec![0; first.len() + second.len()];
    let len = join(first, second, &mut circuit)?;
    circuit.truncate(len);
    Ok(circuit)
}

/// As [`small`], with the length that the C function writes into `written`: 0 where the
/// last circuit has passed.
pub fn small_into(
    inputs: u32,
    outputs: u32,
    gates: u32,
    place: u64,
    out: &mut [u8],
    written: &mut u64,
) -> Result<(), Refusal> {
    // SAFETY: the slice is valid for its length, and `out` and `written` do not overlap.
    answer(unsafe {
        wv_small(
            inputs,
            outputs,
            gates,
            place,
            out.as_mut_ptr(),
            out.len(),
            written,
        )
    })
}

/// Every small circuit in turn, for a test bench. All legal circuit files of `inputs` 1
/// or 2, `outputs` 1 and `gates` 0, 1 or 2 come in ascending order of their bytes, each
/// exactly once, from place 0 on: writes the file at `place` to the start of `out` and
/// gives its length. The bytes behind it stay. [`MAX_SMALL_CIRCUIT`] bytes are room for
/// each. At every place behind the last it gives `None`, and `out` stays.
///
/// Refuses with 29 for other sizes, then with 6 for an `out` that is too short for a file.
pub fn small(
    inputs: u32,
    outputs: u32,
    gates: u32,
    place: u64,
    out: &mut [u8],
) -> Result<Option<usize>, Refusal> {
    let mut written = 0;
    small_into(inputs, outputs, gates, place, out, &mut written)?;
    Ok(Some(len_of(written)).filter(|&len| len > 0))
}

/// The small circuit at a place, or `None` behind the last. Refuses as [`small`] does, but
/// never with 6.
///
/// ```
/// use wivulameno::circuit::{read, small_to_vec};
/// use wivulameno::Refusal;
///
/// // One input, one gate: there are six.
/// let mut place = 0;
/// while let Some(circuit) = small_to_vec(1, 1, 1, place)? {
///     assert_eq!(read(&circuit)?[..3], [1, 1, 1]);
///     place += 1;
/// }
/// assert_eq!(place, 6);
/// assert_eq!(small_to_vec(3, 1, 1, 0), Err(Refusal::SmallSizes));
/// # Ok::<(), Refusal>(())
/// ```
pub fn small_to_vec(
    inputs: u32,
    outputs: u32,
    gates: u32,
    place: u64,
) -> Result<Option<Vec<u8>>, Refusal> {
    let mut circuit = [0; MAX_SMALL_CIRCUIT];
    let len = small(inputs, outputs, gates, place, &mut circuit)?;
    Ok(len.map(|len| circuit[..len].to_vec()))
}

/// As [`one_of`], with the length that the C function writes into `written`.
pub fn one_of_into(
    circuit: &[u8],
    list: &[u8],
    out: &mut [u8],
    written: &mut u64,
) -> Result<(), Refusal> {
    // SAFETY: the slices are valid for their lengths, and `out` and `written`
    // overlap no other.
    answer(unsafe {
        wv_one_of(
            circuit.as_ptr(),
            circuit.len(),
            list.as_ptr(),
            list.len(),
            out.as_mut_ptr(),
            out.len(),
            written,
        )
    })
}

/// Asks whether a row matches one of several outputs, without telling which: of a circuit
/// and a list of its outputs it writes a circuit with the same inputs and a single output,
/// which is 1 exactly if the old output is in the list, to the start of `out` and gives its
/// length. The bytes behind it stay.
///
/// `list` is 1 to [`MAX_LISTED`](crate::limits::MAX_LISTED) outputs, of
/// [`Sizes::y_len`] bytes each, one after the other; an output may be there twice. For N of
/// them there are at most O + N (O + 1) gates more.
///
/// Refuses the circuit as [`circuit`](super) says, then with 30 for a list that is empty or
/// too long, 6 if its length is no multiple of [`Sizes::y_len`], 7 for an unused bit of an
/// output in it, 2 if G + O + N (O + 1) is over 100,000, and with 6 for an `out` that is too
/// short.
pub fn one_of(circuit: &[u8], list: &[u8], out: &mut [u8]) -> Result<usize, Refusal> {
    let mut written = 0;
    one_of_into(circuit, list, out, &mut written)?;
    Ok(len_of(written))
}

/// The circuit file that asks for one of several outputs. Refuses as [`one_of`] does, but
/// not for a short buffer.
///
/// ```
/// use wivulameno::circuit::{evaluate, one_of_to_vec};
/// use wivulameno::Refusal;
///
/// // Three inputs, which are the outputs; asked for are 5 and 6.
/// let circuit = [3, 3, 0, 0, 0, 1, 2].map(u32::to_le_bytes).concat();
/// let one_of = one_of_to_vec(&circuit, &[5, 6])?;
/// for (row, expected) in [(5, 1), (6, 1), (7, 0)] {
///     let mut y = [0];
///     evaluate(&one_of, &[row], &mut y)?;
///     assert_eq!(y, [expected]);
/// }
/// assert_eq!(one_of_to_vec(&circuit, &[]), Err(Refusal::OutputList));
/// # Ok::<(), Refusal>(())
/// ```
pub fn one_of_to_vec(circuit: &[u8], list: &[u8]) -> Result<Vec<u8>, Refusal> {
    let mut built = vec![0; one_of_room(sizes(circuit)?, list.len())];
    let len = one_of(circuit, list, &mut built)?;
    built.truncate(len);
    Ok(built)
}

/// Room for the file that is built for a list of so many bytes.
fn one_of_room(sizes: Sizes, list_len: usize) -> usize {
    let listed = list_len.div_ceil(sizes.y_len()).min(MAX_LISTED) as u32;
    let gates = sizes.gates + sizes.outputs + listed * (sizes.outputs + 1);
    let built = Sizes {
        outputs: 1,
        gates: gates.min(MAX_GATES),
        ..sizes
    };
    built.circuit_len()
}

#[cfg(test)]
mod tests {
    use super::*;

    /// By hand: 63 gates, 17 outputs in 3 bytes.
    #[test]
    fn room() {
        let sizes = Sizes {
            inputs: 32,
            outputs: 17,
            gates: 63,
            ands: 16,
        };
        assert_eq!(one_of_room(sizes, 3), 20 + 16 * (63 + 17 + 18));
        assert_eq!(one_of_room(sizes, 48), 20 + 16 * (63 + 17 + 16 * 18));
        assert_eq!(one_of_room(sizes, 4), one_of_room(sizes, 6));
        assert_eq!(one_of_room(sizes, usize::MAX), one_of_room(sizes, 48));
        let most = Sizes {
            gates: 99_999,
            ..sizes
        };
        assert_eq!(one_of_room(most, 3), 20 + 16 * 100_000);
    }
}
