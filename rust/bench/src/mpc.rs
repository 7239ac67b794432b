//! Runs and replays of the worst circuit, and the challenge.

use crate::rows::{call, nanoseconds_each, Call, Row, Table, ROUNDS};
use reference::bits::clear_rest;
use reference::circuit::Sizes;
use reference::work::work_len;
use std::hint::black_box;
use wivulameno::Work;

const CIRCUIT: &[u8] = include_bytes!("../../../examples/worst.circuit");
const WITNESS: &[u8] = include_bytes!("../../../examples/worst.row");
const PARTIES: u32 = 16;

/// The party that a replay does not see.
const HIDDEN: u32 = 5;

/// All buffers of one instance of the worst circuit.
pub struct Instance {
    sizes: Sizes,
    tapes: Vec<u8>,
    corrections: Vec<u8>,
    shown: [Vec<u8>; 4],
    y: Vec<u8>,
}

impl Instance {
    pub fn worst() -> Instance {
        let sizes = reference::circuit::read(CIRCUIT).expect("a legal circuit");
        let tapes = some_tapes(sizes);
        let mut corrections = vec![0; sizes.corrections_len()];
        let work = &mut a_work(sizes);
        let answer = reference::mpc::prepare(CIRCUIT, PARTIES, &tapes, &mut corrections, work);
        answer.expect("no refusal");
        let mut y = vec![0; sizes.y_len()];
        reference::circuit::evaluate(CIRCUIT, WITNESS, &mut y).expect("no refusal");
        Instance {
            shown: shown(sizes, &tapes),
            sizes,
            tapes,
            corrections,
            y,
        }
    }

    /// The bytes that a run fills, and where its three parts are divided.
    fn run_lens(&self) -> (usize, [usize; 2]) {
        let rows = PARTIES as usize * self.sizes.row_len();
        let first = self.sizes.inputs_len();
        (first + rows + self.sizes.y_len(), [first, first + rows])
    }
}

fn a_work(sizes: Sizes) -> Vec<u8> {
    vec![0; work_len(sizes)]
}

/// Tapes with the unused bits zero; what else they hold does not matter.
fn some_tapes(sizes: Sizes) -> Vec<u8> {
    let len = PARTIES as usize * sizes.tape_row_len();
    let mut tapes = vec![0; len];
    reference::fips202::shake128(b"tapes", &mut tapes);
    let last = len - sizes.tape_row_len();
    clear_rest(&mut tapes[last..], sizes.inputs + sizes.ands);
    tapes
}

/// The four parts of the whole showing.
fn shown(sizes: Sizes, tapes: &[u8]) -> [Vec<u8>; 4] {
    let mut parts = [
        tapes.len(),
        sizes.corrections_len(),
        sizes.inputs_len(),
        sizes.row_len(),
    ]
    .map(|len| vec![0; len]);
    let [shown_tapes, corrections, masked_inputs, row] = &mut parts;
    let out = reference::mpc::ShowingOut {
        tapes: shown_tapes,
        corrections,
        masked_inputs,
        row,
    };
    let cut = sizes.gates as u32;
    let work = &mut a_work(sizes);
    let answer = reference::mpc::show(CIRCUIT, PARTIES, HIDDEN, cut, WITNESS, tapes, out, work);
    answer.expect("no refusal");
    parts
}

/// Prepare, run and replay.
pub fn gates_table(instance: &Instance) -> Table<'_> {
    let Sizes { inputs, ands, .. } = instance.sizes;
    Table {
        title: format!("ns for each AND gate and party, I {inputs}, A {ands}, n {PARTIES}"),
        rounds: ROUNDS,
        told: nanoseconds_each,
        rows: vec![
            prepare_row(instance),
            run_row(instance),
            replay_row(instance),
        ],
    }
}

fn row<'a>(name: &str, instance: &Instance, calls: [Call<'a>; 2]) -> Row<'a> {
    let [ours, second] = calls;
    Row {
        name: format!("{name}, worst"),
        amount: PARTIES as usize * instance.sizes.ands,
        batch: 1,
        calls: [Some(ours), Some(second), None],
    }
}

fn ours_work() -> Work {
    Work::for_circuit(CIRCUIT).expect("a legal circuit")
}

fn prepare_row(instance: &Instance) -> Row<'_> {
    let len = instance.corrections.len();
    let tapes = &instance.tapes;
    let mut work = ours_work();
    let ours = call(len, move |out| {
        wivulameno::mpc::prepare(CIRCUIT, PARTIES, black_box(tapes), out, &mut work)
            .expect("no refusal");
    });
    let mut work = a_work(instance.sizes);
    let second = call(len, move |out| {
        reference::mpc::prepare(CIRCUIT, PARTIES, black_box(tapes), out, &mut work)
            .expect("no refusal");
    });
    row("prepare", instance, [ours, second])
}

/// The same lines for both implementations, whose types have the same names.
macro_rules! run_call {
    ($module:path, $instance:expr, $work:expr) => {{
        use $module as mpc;
        let (len, [first, second]) = $instance.run_lens();
        let mut work = $work;
        call(len, move |out| {
            let (out, y) = out.split_at_mut(second);
            let (masked_inputs, rows) = out.split_at_mut(first);
            let tapes = black_box(&$instance.tapes);
            let out = mpc::RunOut {
                masked_inputs,
                rows,
                y,
            };
            mpc::run(
                CIRCUIT,
                PARTIES,
                WITNESS,
                tapes,
                &$instance.corrections,
                out,
                &mut work,
            )
            .expect("no refusal");
        })
    }};
}

fn run_row(instance: &Instance) -> Row<'_> {
    let ours = run_call!(wivulameno::mpc, instance, ours_work());
    let second = run_call!(reference::mpc, instance, a_work(instance.sizes));
    row("run", instance, [ours, second])
}

macro_rules! replay_call {
    ($module:path, $instance:expr, $work:expr) => {{
        use $module as mpc;
        let mut work = $work;
        let len = PARTIES as usize * $instance.sizes.row_len();
        let [tapes, corrections, masked_inputs, row] = &$instance.shown;
        call(len, move |rows| {
            let showing = mpc::Showing {
                tapes: black_box(tapes),
                corrections,
                masked_inputs,
                row,
            };
            let y = &$instance.y;
            mpc::replay(CIRCUIT, PARTIES, HIDDEN, showing, y, rows, &mut work).expect("no refusal");
        })
    }};
}

fn replay_row(instance: &Instance) -> Row<'_> {
    let ours = replay_call!(wivulameno::mpc, instance, ours_work());
    let second = replay_call!(reference::mpc, instance, a_work(instance.sizes));
    row("replay", instance, [ours, second])
}

/// The challenge for the largest M.
pub fn challenge_table() -> Table<'static> {
    Table {
        title: "ns for each chosen instance".into(),
        rounds: ROUNDS,
        told: nanoseconds_each,
        rows: [1, 64, 256, 511].map(challenge_row).into(),
    }
}

/// The same lines for both implementations. The statement is that of a circuit
/// with one output.
macro_rules! challenge_call {
    ($module:path, $m:expr, $tau:expr) => {{
        use $module as seeds;
        call(3 * $tau as usize, move |out| {
            let input = seeds::ChallengeInput {
                h_star: black_box(&[0x5a; 32]),
                salt: black_box(&[0xa5; 32]),
                circuit_digest: black_box(&[0xa5; 32]),
                y: black_box(&[1]),
                message: b"",
            };
            seeds::challenge($m, $tau, PARTIES, input, out).expect("no refusal");
        })
    }};
}

fn challenge_row(tau: u32) -> Row<'static> {
    let m = 512;
    let ours = challenge_call!(wivulameno::seeds, m, tau);
    let second = challenge_call!(reference::seeds, m, tau);
    Row {
        name: format!("challenge, M {m}, tau {tau}"),
        amount: tau as usize,
        batch: 1,
        calls: [Some(ours), Some(second), None],
    }
}
