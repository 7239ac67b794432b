//! Calls of prepare, run, show and replay by both implementations: answers and
//! every lent byte are compared.

use crate::circuits::{any_sizes, any_slots, damaged, legal, File};
use crate::guarded::Guarded;
use crate::random::Random;
use crate::works;
use reference::bits::clear_rest;
use reference::circuit::Sizes;
use wivulameno::Work;

pub const COUNTS: [u32; 6] = [2, 4, 8, 16, 32, 64];

/// What is no number of parties.
pub const NOT_A_COUNT: [u32; 16] = [
    0,
    1,
    3,
    5,
    15,
    17,
    48,
    63,
    65,
    96,
    128,
    256 + 2,
    256 + 64,
    65_536 + 4,
    1 << 31,
    u32::MAX,
];

#[derive(Clone, Copy, Debug, PartialEq, Eq)]
pub enum Operation {
    Prepare,
    Run,
    Show,
    Replay,
}

/// One call. `inputs` and `out_lens` are in the order of the C interface, after
/// the circuit and the numbers; an operation passes over numbers it has not.
#[derive(Clone, Debug)]
pub struct Call {
    pub operation: Operation,
    pub circuit: Vec<u8>,
    pub n: u32,
    pub p: u32,
    pub cut: u32,
    pub inputs: Vec<Vec<u8>>,
    pub out_lens: Vec<usize>,
    pub work_len: usize,
}

/// What was filled, or the refusal.
pub type Answer = Result<Vec<Vec<u8>>, u32>;

/// The call by the functions of one module, which have the same shape in both.
macro_rules! answer_of {
    ($module:path, $call:expr, $circuit:expr, $inputs:expr, $out:expr, $work:expr) => {{
        use $module as mpc;
        let (Call { n, p, cut, .. }, circuit) = ($call, $circuit);
        match $call.operation {
            Operation::Prepare => {
                let ([tapes], [corrections]) = (all($inputs), all($out));
                mpc::prepare(circuit, *n, tapes, corrections, $work)
            }
            Operation::Run => {
                let [witness, tapes, corrections] = all($inputs);
                let [masked_inputs, rows, y] = all($out);
                let out = mpc::RunOut {
                    masked_inputs,
                    rows,
                    y,
                };
                mpc::run(circuit, *n, witness, tapes, corrections, out, $work)
            }
            Operation::Show => {
                let [witness, lent_tapes] = all($inputs);
                let [tapes, corrections, masked_inputs, row] = all($out);
                let out = mpc::ShowingOut {
                    tapes,
                    corrections,
                    masked_inputs,
                    row,
                };
                mpc::show(circuit, *n, *p, *cut, witness, lent_tapes, out, $work)
            }
            Operation::Replay => {
                let [tapes, corrections, masked_inputs, row, y] = all($inputs);
                let [rows] = all($out);
                let showing = mpc::Showing {
                    tapes,
                    corrections,
                    masked_inputs,
                    row,
                };
                mpc::replay(circuit, *n, *p, showing, y, rows, $work)
            }
        }
    }};
}

/// As many buffers as the operation has.
fn all<T, const N: usize>(buffers: Vec<T>) -> [T; N] {
    let buffers = buffers.try_into();
    buffers.unwrap_or_else(|_| panic!("{N} buffers"))
}

impl Call {
    /// The reference's answer, without guards.
    pub fn by_reference(&self) -> Answer {
        let mut out = self.outputs_of_zeros();
        let inputs = self.inputs.iter().map(|input| &input[..]).collect();
        let lent = out.iter_mut().map(|out| &mut out[..]).collect();
        let work = &mut vec![0; self.work_len];
        answer_of!(reference::mpc, self, &self.circuit, inputs, lent, work)?;
        Ok(out)
    }

    /// The library's answer, without guards.
    pub fn by_library(&self) -> Answer {
        let mut out = self.outputs_of_zeros();
        let inputs = self.inputs.iter().map(|input| &input[..]).collect();
        let lent = out.iter_mut().map(|out| &mut out[..]).collect();
        let mut work = vec![0; self.work_len];
        let work = &mut Work::lent(&mut work);
        let ours = answer_of!(wivulameno::mpc, self, &self.circuit, inputs, lent, work);
        ours.map_err(|refusal| refusal.number())?;
        Ok(out)
    }

    /// The library's answer, with these buffers lent.
    pub fn with(
        &self,
        circuit: &[u8],
        inputs: Vec<&[u8]>,
        out: Vec<&mut [u8]>,
        work: &mut [u8],
    ) -> Result<(), wivulameno::Refusal> {
        let work = &mut Work::lent(work);
        answer_of!(wivulameno::mpc, self, circuit, inputs, out, work)
    }

    fn outputs_of_zeros(&self) -> Vec<Vec<u8>> {
        self.out_lens.iter().map(|&len| vec![0; len]).collect()
    }

    /// For the message of a failure.
    pub fn shown(&self) -> String {
        let head = &self.circuit[..self.circuit.len().min(60)];
        let lens: Vec<usize> = self.inputs.iter().map(Vec::len).collect();
        format!(
            "{:?}, n {}, p {}, cut {}, inputs of {lens:?} bytes, outputs of {:?}, work of {}, circuit {head:02x?}",
            self.operation, self.n, self.p, self.cut, self.out_lens, self.work_len
        )
    }
}

/// Makes the call by both; gives their answer. What is lent must be the same
/// afterwards, and as before if it was not to be filled.
pub fn compare(random: &mut Random, call: &Call) -> Answer {
    let circuit = Guarded::holding(random, &call.circuit);
    let inputs = call.inputs.iter();
    let inputs: Vec<Guarded> = inputs
        .map(|bytes| Guarded::holding(random, bytes))
        .collect();
    let lens = call.out_lens.iter();
    let mut out: Vec<Guarded> = lens.map(|&len| a_buffer(random, len)).collect();
    let mut work = works::Lent::new(random, &call.circuit, call.work_len);
    let mut expected_work = work.copy();

    let mut expected: Vec<Vec<u8>> = out.iter().map(|out| out.get().to_vec()).collect();
    let lent = inputs.iter().map(Guarded::get).collect();
    let filled = expected.iter_mut().map(|out| &mut out[..]).collect();
    let lent_work = &mut expected_work[..];
    let second = answer_of!(reference::mpc, call, circuit.get(), lent, filled, lent_work);

    let lent = inputs.iter().map(Guarded::get).collect();
    let filled = out.iter_mut().map(Guarded::lent).collect();
    let ours = call.with(circuit.get(), lent, filled, work.bytes());
    let shown = call.shown();
    assert_eq!(ours.map_err(|refusal| refusal.number()), second, "{shown}");
    for (place, (out, expected)) in out.iter().zip(&expected).enumerate() {
        assert!(out.get() == expected, "output {place}, {shown}");
        assert!(out.outside_unchanged(), "beside output {place}, {shown}");
        assert!(second.is_ok() || out.unchanged(), "refused, {shown}");
    }
    work.expect(&expected_work, &shown);
    let mut lent = inputs.iter().chain([&circuit]);
    assert!(lent.all(Guarded::unchanged), "inputs, {shown}");
    second.map(|()| expected)
}

fn a_buffer(random: &mut Random, len: usize) -> Guarded {
    let shift = random.below(8);
    Guarded::new(random, shift, len)
}

/// A legal circuit for n parties, with a witness and tapes.
#[derive(Clone, Debug)]
pub struct Setting {
    pub file: File,
    pub slots: Vec<usize>,
    pub circuit: Vec<u8>,
    pub sizes: Sizes,
    pub n: u32,
    pub witness: Vec<u8>,
    pub tapes: Vec<u8>,
}

impl Setting {
    /// Any witness and any tapes for this file, whose chain visits `slots`.
    pub fn of(random: &mut Random, file: File, slots: Vec<usize>, n: u32) -> Setting {
        let circuit = file.bytes();
        let sizes = reference::circuit::read(&circuit).expect("a legal file");
        Setting {
            file,
            slots,
            circuit,
            sizes,
            n,
            witness: any_bits(random, sizes.inputs),
            tapes: any_tapes(random, sizes, n),
        }
    }

    /// Any witness and any tapes for a legal circuit.
    pub fn of_circuit(random: &mut Random, circuit: &[u8], n: u32) -> Setting {
        let file = File::of(circuit);
        let slots = file.chain();
        Setting::of(random, file, slots, n)
    }

    /// Any circuit of these sizes: I, O and G.
    pub fn of_sizes(random: &mut Random, sizes: [usize; 3], n: u32) -> Setting {
        let slots = any_slots(random, sizes[2]);
        let file = legal(random, sizes, &slots);
        Setting::of(random, file, slots, n)
    }

    pub fn any(random: &mut Random) -> Setting {
        let (sizes, n) = (any_sizes(random), random.pick(&COUNTS));
        Setting::of_sizes(random, sizes, n)
    }

    fn call(&self, operation: Operation, inputs: Vec<Vec<u8>>, out_lens: Vec<usize>) -> Call {
        Call {
            operation,
            circuit: self.circuit.clone(),
            n: self.n,
            p: 0,
            cut: 0,
            inputs,
            out_lens,
            work_len: works::least(&self.circuit),
        }
    }

    pub fn prepare(&self) -> Call {
        let out_lens = vec![self.sizes.corrections_len()];
        self.call(Operation::Prepare, vec![self.tapes.clone()], out_lens)
    }

    pub fn run(&self, corrections: &[u8]) -> Call {
        let inputs = vec![
            self.witness.clone(),
            self.tapes.clone(),
            corrections.to_vec(),
        ];
        let out_lens = vec![
            self.sizes.inputs_len(),
            self.n as usize * self.sizes.row_len(),
            self.sizes.y_len(),
        ];
        self.call(Operation::Run, inputs, out_lens)
    }

    pub fn show(&self, p: u32, cut: u32) -> Call {
        let inputs = vec![self.witness.clone(), self.tapes.clone()];
        let out_lens = vec![
            self.tapes.len(),
            self.sizes.corrections_len(),
            self.sizes.inputs_len(),
            self.sizes.row_len(),
        ];
        let call = self.call(Operation::Show, inputs, out_lens);
        Call { p, cut, ..call }
    }

    /// Replays a showing of four parts.
    pub fn replay(&self, p: u32, showing: &[Vec<u8>], y: &[u8]) -> Call {
        let inputs = [showing, &[y.to_vec()]].concat();
        let out_lens = vec![self.n as usize * self.sizes.row_len()];
        let call = self.call(Operation::Replay, inputs, out_lens);
        Call { p, ..call }
    }

    /// The cut that shows all.
    pub fn whole(&self) -> u32 {
        self.sizes.gates as u32
    }

    /// The reference's y of the witness.
    pub fn y(&self) -> Vec<u8> {
        let mut y = vec![0; self.sizes.y_len()];
        let answer = reference::circuit::evaluate(&self.circuit, &self.witness, &mut y);
        answer.expect("a legal file");
        y
    }

    /// One of the four calls, all of it as it should be.
    pub fn any_call(&self, random: &mut Random) -> Call {
        let p = random.below(self.n as usize) as u32;
        match random.below(5) {
            0 => self.prepare(),
            1 => self.run(&any_bits(random, self.sizes.ands)),
            2 => self.show(p, random.from_to(0, self.sizes.gates) as u32),
            _ => {
                let showing = self.show(p, self.whole()).by_reference();
                self.replay(p, &showing.expect("no refusal"), &self.y())
            }
        }
    }
}

/// Random bits with the unused ones zero.
pub fn any_bits(random: &mut Random, count: usize) -> Vec<u8> {
    let mut bytes = random.bytes(count.div_ceil(8));
    clear_rest(&mut bytes, count);
    bytes
}

/// Random rows for n parties with the unused bits zero.
pub fn any_tapes(random: &mut Random, sizes: Sizes, n: u32) -> Vec<u8> {
    let mut tapes = random.bytes(n as usize * sizes.tape_row_len());
    let rows = tapes.chunks_mut(sizes.tape_row_len());
    for (i, row) in rows.enumerate() {
        clear_rest(row, used_bits(sizes, n, i));
    }
    tapes
}

/// The bits that the tape row of party i has in use.
pub fn used_bits(sizes: Sizes, n: u32, i: usize) -> usize {
    match i == n as usize - 1 {
        true => sizes.inputs + sizes.ands,
        false => sizes.inputs + 2 * sizes.ands,
    }
}

/// Changes one thing that the call of this setting is lent. The call may be
/// good nevertheless.
pub fn damage(random: &mut Random, setting: &Setting, call: &mut Call) {
    match random.below(13) {
        12 => call.work_len = random.pick(&[0, 1, call.work_len.saturating_sub(1)]),
        0 | 1 => call.circuit = damaged(random, &setting.file, &setting.slots),
        2 => call.n = random.pick(&[&NOT_A_COUNT[..], &COUNTS].concat()),
        3 => call.p = random.pick(&[call.n, call.n.wrapping_add(1), 1 << 31, u32::MAX]),
        4 => call.cut = setting.whole() + random.pick(&[1, 2, 65_536, 1 << 31]),
        5 | 6 => another_length(random, call),
        _ => flip(random, setting.sizes.tape_row_len(), call),
    }
}

/// Another length for one of the buffers.
fn another_length(random: &mut Random, call: &mut Call) {
    let place = random.below(call.inputs.len() + call.out_lens.len());
    let (inputs, outputs) = (&mut call.inputs, &mut call.out_lens);
    match inputs.get_mut(place) {
        Some(input) => {
            let len = another(random, input.len());
            let more = random.bytes(len.saturating_sub(input.len()));
            input.truncate(len);
            input.extend(more);
        }
        None => {
            let len = &mut outputs[place - inputs.len()];
            *len = another(random, *len);
        }
    }
}

fn another(random: &mut Random, len: usize) -> usize {
    let less = len.saturating_sub(1);
    random.pick(&[0, less, len + 1, len + 1, 2 * len, len + 256])
}

/// Flips one bit of an input, often in its last byte or in that of a tape row.
fn flip(random: &mut Random, tape_row_len: usize, call: &mut Call) {
    let which = random.below(call.inputs.len());
    let input = &mut call.inputs[which];
    if input.is_empty() {
        return;
    }
    let any = random.below(input.len());
    let row_end = (any / tape_row_len + 1) * tape_row_len - 1;
    let place = random.pick(&[any, input.len() - 1, row_end.min(input.len() - 1)]);
    input[place] ^= 1 << random.below(8);
}

#[cfg(test)]
mod tests {
    use super::*;

    #[test]
    fn calls_of_a_setting_are_good() {
        let mut random = Random::new(1);
        for _ in 0..200 {
            let setting = Setting::any(&mut random);
            let call = setting.any_call(&mut random);
            let answer = call.by_reference();
            assert!(answer.is_ok(), "{}", call.shown());
            let lens: Vec<usize> = answer.unwrap().iter().map(Vec::len).collect();
            assert_eq!(lens, call.out_lens);
        }
    }

    #[test]
    fn most_damages_are_refused() {
        let mut random = Random::new(2);
        let refused = (0..400).filter(|_| {
            let setting = Setting::any(&mut random);
            let mut call = setting.any_call(&mut random);
            damage(&mut random, &setting, &mut call);
            call.by_reference().is_err()
        });
        let refused = refused.count();
        assert!((200..400).contains(&refused), "{refused} of 400");
    }
}
