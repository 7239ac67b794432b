//! Tapes and run: corrections, broadcasts, showings and replays, bit by bit.

use crate::bits::{clear_rest, get, oct, put, rest_is_zero};
use crate::circuit::{legal, Circuit, Sizes, AND, XOR};
use crate::seeds::parties;
use crate::work::Work;
use crate::Refusal;
use std::ops::Range;

/// The parts that a run fills.
pub struct RunOut<'a> {
    pub masked_inputs: &'a mut [u8],
    pub rows: &'a mut [u8],
    pub y: &'a mut [u8],
}

/// The four parts of a showing, to be read.
#[derive(Clone, Copy)]
pub struct Showing<'a> {
    pub tapes: &'a [u8],
    pub corrections: &'a [u8],
    pub masked_inputs: &'a [u8],
    pub row: &'a [u8],
}

/// The four parts of a showing, to be filled.
pub struct ShowingOut<'a> {
    pub tapes: &'a mut [u8],
    pub corrections: &'a mut [u8],
    pub masked_inputs: &'a mut [u8],
    pub row: &'a mut [u8],
}

/// Lengths in bytes.
impl Sizes {
    pub fn tape_row_len(&self) -> usize {
        oct(self.inputs + 2 * self.ands)
    }

    pub fn corrections_len(&self) -> usize {
        oct(self.ands)
    }

    /// The length of a witness and of masked inputs.
    pub fn inputs_len(&self) -> usize {
        oct(self.inputs)
    }

    /// The length of one party's broadcasts.
    pub fn row_len(&self) -> usize {
        oct(self.ands + self.outputs)
    }

    pub fn y_len(&self) -> usize {
        oct(self.outputs)
    }
}

/// Fills `corrections` from the tapes: the refusals of the circuit, 6 for `work`, 8,
/// 6 and 7.
pub fn prepare(
    file: &[u8],
    n: u32,
    tapes: &[u8],
    corrections: &mut [u8],
    work: &mut [u8],
) -> Result<(), Refusal> {
    let circuit = legal(file)?;
    let _work = Work::lent(circuit.sizes(), work)?;
    let (sizes, n) = (circuit.sizes(), parties(n)?);
    lengths(&[
        (tapes.len(), n * sizes.tape_row_len()),
        (corrections.len(), sizes.corrections_len()),
    ])?;
    unused_in_tapes(sizes, n, tapes)?;
    corrections.copy_from_slice(&right_corrections(&circuit, n, tapes));
    Ok(())
}

/// Runs all parties with the corrections as lent: the refusals of the circuit, 6 for
/// `work`, 8, 6 and 7.
pub fn run(
    file: &[u8],
    n: u32,
    witness: &[u8],
    tapes: &[u8],
    corrections: &[u8],
    out: RunOut,
    work: &mut [u8],
) -> Result<(), Refusal> {
    let circuit = legal(file)?;
    let _work = Work::lent(circuit.sizes(), work)?;
    let (sizes, n) = (circuit.sizes(), parties(n)?);
    lengths(&[
        (witness.len(), sizes.inputs_len()),
        (tapes.len(), n * sizes.tape_row_len()),
        (corrections.len(), sizes.corrections_len()),
        (out.masked_inputs.len(), sizes.inputs_len()),
        (out.rows.len(), n * sizes.row_len()),
        (out.y.len(), sizes.y_len()),
    ])?;
    unused(witness, sizes.inputs)?;
    unused_in_tapes(sizes, n, tapes)?;
    unused(corrections, sizes.ands)?;
    let (masked_inputs, rows, y) = run_parties(&circuit, n, witness, tapes, corrections);
    out.masked_inputs.copy_from_slice(&masked_inputs);
    out.rows.copy_from_slice(&rows);
    out.y.copy_from_slice(&y);
    Ok(())
}

/// Fills the showing with party p hidden, cut after `cut` gates: the refusals of
/// the circuit, 6 for `work`, 8, 9, 6 and 7.
#[allow(clippy::too_many_arguments)]
pub fn show(
    file: &[u8],
    n: u32,
    p: u32,
    cut: u32,
    witness: &[u8],
    tapes: &[u8],
    out: ShowingOut,
    work: &mut [u8],
) -> Result<(), Refusal> {
    let circuit = legal(file)?;
    let _work = Work::lent(circuit.sizes(), work)?;
    let (sizes, n) = (circuit.sizes(), parties(n)?);
    let (p, cut) = (p as usize, cut as usize);
    if p >= n || cut > sizes.gates {
        return Err(9);
    }
    lengths(&[
        (witness.len(), sizes.inputs_len()),
        (tapes.len(), n * sizes.tape_row_len()),
        (out.tapes.len(), n * sizes.tape_row_len()),
        (out.corrections.len(), sizes.corrections_len()),
        (out.masked_inputs.len(), sizes.inputs_len()),
        (out.row.len(), sizes.row_len()),
    ])?;
    unused(witness, sizes.inputs)?;
    unused_in_tapes(sizes, n, tapes)?;
    let corrections = right_corrections(&circuit, n, tapes);
    let (masked_inputs, rows, _) = run_parties(&circuit, n, witness, tapes, &corrections);

    out.tapes.copy_from_slice(tapes);
    out.tapes[place_of(p, sizes.tape_row_len())].fill(0);
    out.corrections.copy_from_slice(&corrections);
    if p == n - 1 {
        out.corrections.fill(0);
    }
    out.masked_inputs.copy_from_slice(&masked_inputs);
    out.row.copy_from_slice(&rows[place_of(p, sizes.row_len())]);
    clear_rest(out.row, shown_bits(&circuit, cut));
    Ok(())
}

/// Fills `rows` with all broadcasts of an opened run: the refusals of the circuit,
/// 6 for `work`, 8, 9, 6, 7 and 10.
pub fn replay(
    file: &[u8],
    n: u32,
    p: u32,
    showing: Showing,
    y: &[u8],
    rows: &mut [u8],
    work: &mut [u8],
) -> Result<(), Refusal> {
    let circuit = legal(file)?;
    let _work = Work::lent(circuit.sizes(), work)?;
    let (sizes, n, p) = (circuit.sizes(), parties(n)?, p as usize);
    if p >= n {
        return Err(9);
    }
    lengths(&[
        (showing.tapes.len(), n * sizes.tape_row_len()),
        (showing.corrections.len(), sizes.corrections_len()),
        (showing.masked_inputs.len(), sizes.inputs_len()),
        (showing.row.len(), sizes.row_len()),
        (y.len(), sizes.y_len()),
        (rows.len(), n * sizes.row_len()),
    ])?;
    unused_in_tapes(sizes, n, showing.tapes)?;
    unused(showing.corrections, sizes.ands)?;
    unused(showing.masked_inputs, sizes.inputs)?;
    unused(showing.row, sizes.ands + sizes.outputs)?;
    unused(y, sizes.outputs)?;
    unused(&showing.tapes[place_of(p, sizes.tape_row_len())], 0)?;
    if p == n - 1 {
        unused(showing.corrections, 0)?;
    }
    let (replayed, output) = run_shown(&circuit, n, p, showing);
    if output != y {
        return Err(10);
    }
    rows.copy_from_slice(&replayed);
    Ok(())
}

/// 6 if a length is not the one stated beside it.
fn lengths(pairs: &[(usize, usize)]) -> Result<(), Refusal> {
    match pairs.iter().all(|(lent, stated)| lent == stated) {
        true => Ok(()),
        false => Err(6),
    }
}

/// 7 if a bit from place `used` on is not zero.
fn unused(bytes: &[u8], used: usize) -> Result<(), Refusal> {
    match rest_is_zero(bytes, used) {
        true => Ok(()),
        false => Err(7),
    }
}

/// 7 for each row of the tapes; party n - 1 has no product shares.
fn unused_in_tapes(sizes: Sizes, n: usize, tapes: &[u8]) -> Result<(), Refusal> {
    for (i, row) in tapes.chunks(sizes.tape_row_len()).enumerate() {
        let masks = sizes.inputs + sizes.ands;
        let products = if i == n - 1 { 0 } else { sizes.ands };
        unused(row, masks + products)?;
    }
    Ok(())
}

/// The bytes of party p in a buffer of rows.
fn place_of(p: usize, row_len: usize) -> Range<usize> {
    p * row_len..(p + 1) * row_len
}

/// The bits of a broadcast row that the cut after `cut` gates shows.
fn shown_bits(circuit: &Circuit, cut: usize) -> usize {
    let sizes = circuit.sizes();
    if cut == sizes.gates {
        return sizes.ands + sizes.outputs;
    }
    let passed = circuit.gates[..cut].iter();
    passed.filter(|(gate, _)| gate.kind == AND).count()
}

/// A party's shares: of the mask of each wire, and of the product at each AND.
struct Party {
    masks: Vec<bool>,
    products: Vec<bool>,
}

impl Party {
    /// The bit to broadcast at AND gate `k` of wires a and b into c, where `x`
    /// and `y` are the masked values of a and b.
    fn and_bit(&self, k: usize, [a, b, c]: [usize; 3], x: bool, y: bool) -> bool {
        (x & self.masks[b]) ^ (y & self.masks[a]) ^ self.products[k] ^ self.masks[c]
    }
}

/// The shares of all parties. The last one's product shares are the corrections.
fn all_parties(circuit: &Circuit, n: usize, tapes: &[u8], corrections: &[u8]) -> Vec<Party> {
    let sizes = circuit.sizes();
    let rows = tapes.chunks(sizes.tape_row_len()).enumerate();
    let parties = rows.map(|(i, row)| Party {
        masks: mask_shares(circuit, row),
        products: (0..sizes.ands)
            .map(|k| match i == n - 1 {
                true => get(corrections, k),
                false => get(row, sizes.inputs + sizes.ands + k),
            })
            .collect(),
    });
    parties.collect()
}

/// A party's share of the mask of each wire, from its tape row.
fn mask_shares(circuit: &Circuit, row: &[u8]) -> Vec<bool> {
    let mut shares = vec![false; circuit.wires()];
    for (wire, share) in shares[..circuit.inputs].iter_mut().enumerate() {
        *share = get(row, wire);
    }
    let mut place = circuit.inputs;
    for (gate, wire) in &circuit.gates {
        shares[*wire] = match gate.kind {
            XOR => shares[gate.a] ^ shares[gate.b],
            AND => {
                place += 1;
                get(row, place - 1)
            }
            _ => shares[gate.a],
        };
    }
    shares
}

/// The mask of a wire.
fn mask(parties: &[Party], wire: usize) -> bool {
    parties.iter().fold(false, |sum, i| sum ^ i.masks[wire])
}

/// At each AND gate the product of its input masks, XOR the product shares of
/// all parties but the last.
pub(crate) fn right_corrections(circuit: &Circuit, n: usize, tapes: &[u8]) -> Vec<u8> {
    let mut corrections = vec![0; circuit.sizes().corrections_len()];
    let parties = all_parties(circuit, n, tapes, &corrections);
    let ands = circuit.gates.iter().filter(|(gate, _)| gate.kind == AND);
    for (k, (gate, _)) in ands.enumerate() {
        let product = mask(&parties, gate.a) & mask(&parties, gate.b);
        let others = parties[..n - 1].iter();
        let bit = others.fold(product, |sum, i| sum ^ i.products[k]);
        put(&mut corrections, k, bit);
    }
    corrections
}

/// All parties run: the masked inputs, all broadcast rows, and the output.
pub(crate) fn run_parties(
    circuit: &Circuit,
    n: usize,
    witness: &[u8],
    tapes: &[u8],
    corrections: &[u8],
) -> (Vec<u8>, Vec<u8>, Vec<u8>) {
    let parties = all_parties(circuit, n, tapes, corrections);
    let masked_inputs = mask_inputs(circuit, &parties, witness);
    let (rows, y) = run_masked(circuit, &parties, &masked_inputs, None);
    (masked_inputs, rows, y)
}

/// All parties but p run: all broadcast rows, and the output.
pub(crate) fn run_shown(
    circuit: &Circuit,
    n: usize,
    p: usize,
    showing: Showing,
) -> (Vec<u8>, Vec<u8>) {
    let parties = all_parties(circuit, n, showing.tapes, showing.corrections);
    let hidden = Some((p, showing.row));
    run_masked(circuit, &parties, showing.masked_inputs, hidden)
}

/// Each input XOR its mask.
fn mask_inputs(circuit: &Circuit, parties: &[Party], witness: &[u8]) -> Vec<u8> {
    let mut masked = vec![0; witness.len()];
    for wire in 0..circuit.inputs {
        put(&mut masked, wire, get(witness, wire) ^ mask(parties, wire));
    }
    masked
}

/// The rows of all parties as they are broadcast. A hidden party's row is known
/// beforehand.
struct Broadcasts {
    rows: Vec<Vec<u8>>,
    hidden: Option<usize>,
}

impl Broadcasts {
    /// Each party broadcasts its bit at `place`, a hidden one that of its row.
    /// Gives the XOR of all.
    fn add(&mut self, place: usize, bits: impl Iterator<Item = bool>) -> bool {
        let mut sum = false;
        for (i, (row, bit)) in self.rows.iter_mut().zip(bits).enumerate() {
            if self.hidden != Some(i) {
                put(row, place, bit);
            }
            sum ^= get(row, place);
        }
        sum
    }
}

/// Runs the circuit on masked values, with the row of a hidden party as given:
/// all broadcast rows, and the output.
fn run_masked(
    circuit: &Circuit,
    parties: &[Party],
    masked_inputs: &[u8],
    hidden: Option<(usize, &[u8])>,
) -> (Vec<u8>, Vec<u8>) {
    let sizes = circuit.sizes();
    let mut broadcasts = Broadcasts {
        rows: vec![vec![0; sizes.row_len()]; parties.len()],
        hidden: hidden.map(|(p, _)| p),
    };
    if let Some((p, row)) = hidden {
        broadcasts.rows[p].copy_from_slice(row);
    }
    let masked = masked_values(circuit, parties, masked_inputs, &mut broadcasts);
    let mut y = vec![0; sizes.y_len()];
    for (place, &wire) in circuit.outputs.iter().enumerate() {
        let shares = parties.iter().map(|party| party.masks[wire]);
        let mask = broadcasts.add(sizes.ands + place, shares);
        put(&mut y, place, masked[wire] ^ mask);
    }
    (broadcasts.rows.concat(), y)
}

/// The masked value of every wire; each AND gate is broadcast on the way.
fn masked_values(
    circuit: &Circuit,
    parties: &[Party],
    masked_inputs: &[u8],
    broadcasts: &mut Broadcasts,
) -> Vec<bool> {
    let mut masked = vec![false; circuit.wires()];
    for (wire, value) in masked[..circuit.inputs].iter_mut().enumerate() {
        *value = get(masked_inputs, wire);
    }
    let mut k = 0;
    for (gate, wire) in &circuit.gates {
        let (x, y) = (masked[gate.a], masked[gate.b]);
        masked[*wire] = match gate.kind {
            XOR => x ^ y,
            AND => {
                let wires = [gate.a, gate.b, *wire];
                let bits = parties.iter().map(|i| i.and_bit(k, wires, x, y));
                let sum = broadcasts.add(k, bits);
                k += 1;
                (x & y) ^ sum
            }
            _ => !x,
        };
    }
    masked
}

#[cfg(test)]
mod tests {
    use super::*;
    use crate::circuit::{evaluate, read};
    use crate::examples::{FOUR, K};

    /// More than the circuits here ask for, and not zero.
    fn a_work() -> Vec<u8> {
        vec![0xa5; 5000]
    }

    type Parts = [Vec<u8>; 4];

    fn prepared(file: &[u8], n: u32, tapes: &[u8]) -> Result<Vec<u8>, Refusal> {
        let mut corrections = vec![0xa5; read(file)?.corrections_len()];
        prepare(file, n, tapes, &mut corrections, &mut a_work())?;
        Ok(corrections)
    }

    /// The masked inputs, the rows and y.
    fn ran(
        file: &[u8],
        n: u32,
        witness: &[u8],
        tapes: &[u8],
        corrections: &[u8],
    ) -> Result<[Vec<u8>; 3], Refusal> {
        let sizes = read(file)?;
        let mut masked_inputs = vec![0xa5; sizes.inputs_len()];
        let mut rows = vec![0xa5; n as usize * sizes.row_len()];
        let mut y = vec![0xa5; sizes.y_len()];
        let out = RunOut {
            masked_inputs: &mut masked_inputs,
            rows: &mut rows,
            y: &mut y,
        };
        run(file, n, witness, tapes, corrections, out, &mut a_work())?;
        Ok([masked_inputs, rows, y])
    }

    fn shown(
        file: &[u8],
        [n, p, cut]: [u32; 3],
        witness: &[u8],
        tapes: &[u8],
    ) -> Result<Parts, Refusal> {
        let sizes = read(file)?;
        let mut parts = [
            vec![0xa5; tapes.len()],
            vec![0xa5; sizes.corrections_len()],
            vec![0xa5; sizes.inputs_len()],
            vec![0xa5; sizes.row_len()],
        ];
        let [tapes_out, corrections, masked_inputs, row] = &mut parts;
        let out = ShowingOut {
            tapes: tapes_out,
            corrections,
            masked_inputs,
            row,
        };
        show(file, n, p, cut, witness, tapes, out, &mut a_work())?;
        Ok(parts)
    }

    fn replayed(
        file: &[u8],
        [n, p]: [u32; 2],
        parts: &Parts,
        y: &[u8],
    ) -> Result<Vec<u8>, Refusal> {
        let mut rows = vec![0xa5; n as usize * parts[3].len()];
        let showing = Showing {
            tapes: &parts[0],
            corrections: &parts[1],
            masked_inputs: &parts[2],
            row: &parts[3],
        };
        replay(file, n, p, showing, y, &mut rows, &mut a_work())?;
        Ok(rows)
    }

    /// Tapes for n parties of `FOUR`: I + 2 A is 7 bits, 5 for the last party.
    fn some_tapes(n: usize) -> Vec<u8> {
        let mut tapes: Vec<u8> = (0..n).map(|i| (37 * i + 61) as u8 & 0x7f).collect();
        tapes[n - 1] &= 0x1f;
        tapes
    }

    #[test]
    fn m6_the_correction() {
        assert_eq!(prepared(&K, 2, &[13, 3]), Ok(vec![1]));
    }

    #[test]
    fn m7_witness_1_1() {
        let expected = [vec![1], vec![2, 0], vec![1]];
        assert_eq!(ran(&K, 2, &[3], &[13, 3], &[1]), Ok(expected));
    }

    #[test]
    fn m8_witness_1_0() {
        let [masked_inputs, rows, y] = ran(&K, 2, &[1], &[13, 3], &[1]).unwrap();
        assert_eq!((masked_inputs, rows[0], y), (vec![3], 3, vec![0]));
    }

    #[test]
    fn m9_another_witness_shows_the_same() {
        let one = shown(&K, [2, 0, 1], &[1], &[13, 3]);
        let expected = [vec![0, 3], vec![1], vec![3], vec![3]];
        assert_eq!(one, Ok(expected));
        assert_eq!(shown(&K, [2, 0, 1], &[2], &[14, 3]), one);
        assert_eq!(
            shown(&K, [2, 0, 0], &[2], &[14, 3]),
            shown(&K, [2, 0, 0], &[1], &[13, 3])
        );
    }

    #[test]
    fn a_run_gives_the_output() {
        for n in [2, 4, 8, 16, 32, 64] {
            let tapes = some_tapes(n);
            let n = n as u32;
            let corrections = prepared(&FOUR, n, &tapes).unwrap();
            for witness in 0..8 {
                let mut y = [0];
                evaluate(&FOUR, &[witness], &mut y).unwrap();
                let run = ran(&FOUR, n, &[witness], &tapes, &corrections);
                assert_eq!(run.unwrap()[2], y, "n {n}, witness {witness}");
            }
        }
    }

    #[test]
    fn a_replay_gives_the_rows() {
        for n in [2, 4, 8, 16, 32, 64] {
            let tapes = some_tapes(n);
            let n = n as u32;
            let corrections = prepared(&FOUR, n, &tapes).unwrap();
            let [_, rows, y] = ran(&FOUR, n, &[6], &tapes, &corrections).unwrap();
            for p in 0..n {
                let parts = shown(&FOUR, [n, p, 4], &[6], &tapes).unwrap();
                let again = replayed(&FOUR, [n, p], &parts, &y);
                assert_eq!(again.as_ref(), Ok(&rows), "n {n}, p {p}");
                let other = replayed(&FOUR, [n, p], &parts, &[y[0] ^ 4]);
                assert_eq!(other, Err(10), "n {n}, p {p}");
            }
        }
    }

    /// The gates in chain order are INV, AND, AND, XOR: 2 AND bits, 3 outputs.
    #[test]
    fn cuts_of_a_row() {
        let tapes = some_tapes(4);
        let whole = shown(&FOUR, [4, 1, 4], &[5], &tapes).unwrap();
        for (cut, bits) in [(0, 0), (1, 0), (2, 1), (3, 2), (4, 5)] {
            let mut expected = whole.clone();
            clear_rest(&mut expected[3], bits);
            assert_eq!(shown(&FOUR, [4, 1, cut], &[5], &tapes), Ok(expected));
        }
    }

    /// The last party's correction is wrong: its AND gate gives the other value.
    #[test]
    fn a_wrong_correction_turns_its_gate() {
        for (witness, y) in [(0, 1), (1, 1), (2, 1), (3, 0)] {
            let run = ran(&K, 2, &[witness], &[13, 3], &[0]).unwrap();
            assert_eq!(run[2], [y], "witness {witness}");
        }
    }

    #[test]
    fn refusals_in_order() {
        let prepare_for = |file: &[u8], n, tapes: &[u8], len| {
            prepare(file, n, tapes, &mut vec![0; len], &mut a_work())
        };
        assert_eq!(prepare_for(&[], 3, &[], 9), Err(1));
        assert_eq!(prepare_for(&K, 3, &[], 9), Err(8));
        assert_eq!(prepare_for(&K, 2, &[255, 255], 2), Err(6));
        assert_eq!(prepared(&K, 2, &[16, 0]), Err(7));
        assert_eq!(prepared(&K, 2, &[0, 8]), Err(7));
        assert_eq!(ran(&K, 2, &[4], &[13], &[1]), Err(6));
        assert_eq!(ran(&K, 2, &[4], &[13, 3], &[1]), Err(7));
        assert_eq!(ran(&K, 2, &[3], &[13, 3], &[2]), Err(7));
        assert_eq!(shown(&K, [3, 9, 9], &[], &[]), Err(8));
        assert_eq!(shown(&K, [2, 2, 0], &[], &[]), Err(9));
        assert_eq!(shown(&K, [2, 1, 2], &[], &[]), Err(9));
        assert_eq!(shown(&K, [2, 1, 1], &[], &[]), Err(6));
        assert_eq!(shown(&K, [2, 1, 1], &[4], &[13, 3]), Err(7));
    }

    #[test]
    fn refusals_of_a_replay() {
        let parts = shown(&K, [2, 0, 1], &[1], &[13, 3]).unwrap();
        assert_eq!(replayed(&K, [2, 0], &parts, &[0]), Ok(vec![3, 1]));
        assert_eq!(replayed(&K, [3, 3], &parts, &[4, 4]), Err(8));
        assert_eq!(replayed(&K, [2, 2], &parts, &[4, 4]), Err(9));
        assert_eq!(replayed(&K, [2, 0], &parts, &[4, 4]), Err(6));
        assert_eq!(replayed(&K, [2, 0], &parts, &[2]), Err(7));
        assert_eq!(replayed(&K, [2, 0], &parts, &[1]), Err(10));
        let with = |part: usize, bytes: Vec<u8>| {
            let mut parts = parts.clone();
            parts[part] = bytes;
            parts
        };
        for (part, bytes) in [
            (0, vec![1, 3]),
            (0, vec![0, 8]),
            (1, vec![3]),
            (2, vec![7]),
            (3, vec![7]),
        ] {
            assert_eq!(replayed(&K, [2, 0], &with(part, bytes), &[1]), Err(7));
        }
        let last = with(0, vec![13, 0]);
        assert_eq!(replayed(&K, [2, 1], &last, &[0]), Err(7));
    }

    /// K asks for 64 times 3 bytes and 4,096. What an ending makes of the buffer.
    #[test]
    fn the_work_buffer() {
        let left = |file: &[u8], n, tapes: &[u8], len| {
            let mut work = vec![0xa5; len];
            let answer = prepare(file, n, tapes, &mut [0], &mut work);
            let zero = work.iter().all(|&byte| byte == 0);
            assert!(zero || work == vec![0xa5; len]);
            (answer, zero)
        };
        assert_eq!(left(&[], 3, &[], 9000), (Err(1), false));
        assert_eq!(left(&K, 3, &[], 4287), (Err(6), false));
        assert_eq!(left(&K, 3, &[], 4288), (Err(8), true));
        assert_eq!(left(&K, 2, &[], 4288), (Err(6), true));
        assert_eq!(left(&K, 2, &[16, 0], 4288), (Err(7), true));
        assert_eq!(left(&K, 2, &[13, 3], 4288), (Ok(()), true));
        assert_eq!(left(&K, 2, &[13, 3], 9001), (Ok(()), true));
        assert_eq!(left(&K, 2, &[13, 3], 4287), (Err(6), false));
    }
}
