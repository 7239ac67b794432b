//! Calls of prove and check by both implementations: answers and every lent
//! byte are compared.

use crate::calls::Setting;
use crate::guarded::Guarded;
use crate::random::Random;
use crate::works;
use reference::bits::oct;
use reference::circuit::Sizes;
use reference::proof::{cover_len, header, hidden_parties, parts, Statement};
use std::ops::Range;
use wivulameno::Work;

/// The places of h* and of the salt in a proof, and the bytes before the opened nodes.
pub const H_STAR: Range<usize> = 6..38;
pub const SALT: Range<usize> = 38..70;
pub const HEADER: usize = 70;

/// One call of prove. The counts are M, tau and n.
#[derive(Clone, Debug)]
pub struct Prove {
    pub circuit: Vec<u8>,
    pub witness: Vec<u8>,
    pub y: Vec<u8>,
    pub message: Vec<u8>,
    pub root: Vec<u8>,
    pub salt: Vec<u8>,
    pub counts: [u32; 3],
    pub proof_len: usize,
    pub work_len: usize,
}

/// One call of check.
#[derive(Clone, Debug)]
pub struct Check {
    pub circuit: Vec<u8>,
    pub y: Vec<u8>,
    pub message: Vec<u8>,
    pub proof: Vec<u8>,
    pub work_len: usize,
}

/// The call by the functions of one module, whose types have the same names.
macro_rules! prove_by {
    ($module:path, $counts:expr, $inputs:expr, $prove:ident $(, $out:expr)+) => {{
        use $module as proof;
        let [circuit, witness, y, message, root, salt] = $inputs;
        let statement = proof::Statement { circuit, y, message };
        let [m, tau, n] = $counts;
        proof::$prove(statement, witness, root, salt, proof::Counts { m, tau, n } $(, $out)+)
    }};
}

macro_rules! check_by {
    ($module:path, $inputs:expr, $work:expr) => {{
        use $module as proof;
        let [circuit, y, message, file] = $inputs;
        let statement = proof::Statement {
            circuit,
            y,
            message,
        };
        proof::check(statement, file, $work)
    }};
}

impl Prove {
    /// A good call for a setting with these M and tau; the proof's buffer has
    /// the least length.
    pub fn of(random: &mut Random, setting: &Setting, counts: [u32; 2], message: usize) -> Prove {
        let counts = [counts[0], counts[1], setting.n];
        Prove {
            circuit: setting.circuit.clone(),
            witness: setting.witness.clone(),
            y: setting.y(),
            message: random.bytes(message),
            root: random.bytes(16),
            salt: random.bytes(32),
            counts,
            proof_len: longest(setting.sizes, counts),
            work_len: works::least(&setting.circuit),
        }
    }

    fn inputs(&self) -> [&[u8]; 6] {
        let Prove {
            circuit,
            witness,
            y,
            message,
            root,
            salt,
            ..
        } = self;
        [circuit, witness, y, message, root, salt]
    }

    /// The reference's proof, without guards.
    pub fn by_reference(&self) -> Result<Vec<u8>, u32> {
        let mut proof = vec![0; self.proof_len];
        let len = prove_by!(
            reference::proof,
            self.counts,
            self.inputs(),
            prove,
            &mut proof,
            &mut vec![0; self.work_len]
        )?;
        proof.truncate(len);
        Ok(proof)
    }

    /// What the reference is to prove.
    pub fn statement(&self) -> Statement<'_> {
        Statement {
            circuit: &self.circuit,
            y: &self.y,
            message: &self.message,
        }
    }

    /// The check of a proof for this circuit, y and message.
    pub fn check(&self, proof: &[u8]) -> Check {
        Check {
            circuit: self.circuit.clone(),
            y: self.y.clone(),
            message: self.message.clone(),
            proof: proof.to_vec(),
            work_len: self.work_len,
        }
    }

    /// For the message of a failure.
    pub fn shown(&self) -> String {
        format!(
            "prove, counts {:?}, inputs of {:?} bytes, proof of {}, work of {}, circuit {:02x?}",
            self.counts,
            self.inputs().map(<[u8]>::len),
            self.proof_len,
            self.work_len,
            &self.circuit[..self.circuit.len().min(60)]
        )
    }
}

impl Check {
    fn inputs(&self) -> [&[u8]; 4] {
        [&self.circuit, &self.y, &self.message, &self.proof]
    }

    /// What the reference is asked.
    pub fn statement(&self) -> Statement<'_> {
        Statement {
            circuit: &self.circuit,
            y: &self.y,
            message: &self.message,
        }
    }

    /// For each instance its hidden party, if the challenge chooses it.
    pub fn hidden(&self) -> Vec<Option<u8>> {
        hidden_parties(self.statement(), header(&self.proof).expect("a header"))
    }

    /// The reference's answer, without guards.
    pub fn by_reference(&self) -> Result<(), u32> {
        check_by!(reference::proof, self.inputs(), &mut vec![0; self.work_len])
    }

    /// For the message of a failure.
    pub fn shown(&self) -> String {
        format!(
            "check, inputs of {:?} bytes, work of {}, header {:02x?}, circuit {:02x?}",
            self.inputs().map(<[u8]>::len),
            self.work_len,
            &self.proof[..self.proof.len().min(6)],
            &self.circuit[..self.circuit.len().min(60)]
        )
    }
}

/// What the papers ask of the proof's buffer.
pub fn longest(sizes: Sizes, [m, tau, n]: [u32; 3]) -> usize {
    let [m, tau] = [m, tau].map(|count| count as usize);
    let Sizes {
        inputs,
        outputs,
        ands,
        ..
    } = sizes;
    let siblings = 16 * n.ilog2() as usize;
    let chosen = siblings + oct(ands) + 32 + oct(inputs) + oct(ands + outputs);
    HEADER + 48 * (m - tau) + tau * chosen
}

/// Proves by both; gives the proof or the refusal. What is lent must be the same
/// afterwards, and as before if it was not to be written.
pub fn compare_prove(random: &mut Random, call: &Prove) -> Result<Vec<u8>, u32> {
    let inputs = Guarded::holding_each(random, call.inputs());
    let lent = inputs.each_ref().map(Guarded::get);
    let shift = random.below(8);
    let mut proof = Guarded::new(random, shift, call.proof_len);
    let mut expected = proof.get().to_vec();
    let mut work = works::Lent::new(random, &call.circuit, call.work_len);
    let mut expected_work = work.copy();
    let second = prove_by!(
        reference::proof,
        call.counts,
        lent,
        prove,
        &mut expected,
        &mut expected_work
    );

    let before = [0; 3].map(|_| random.word());
    let mut words = before;
    let ours = prove_by!(
        wivulameno::proof,
        call.counts,
        lent,
        prove_into,
        proof.lent(),
        &mut words[1],
        &mut Work::lent(work.bytes())
    );
    let shown = call.shown();
    work.expect(&expected_work, &shown);
    let answer = second.map(|_| ()).map_err(wivulameno::Refusal::of);
    assert_eq!(ours, answer, "{shown}");
    let written = second.map_or(before[1], |len| len as u64);
    assert_eq!(words, [before[0], written, before[2]], "written, {shown}");
    assert!(proof.get() == expected, "the proof's bytes, {shown}");
    assert!(proof.outside_unchanged(), "beside the proof, {shown}");
    assert!(second.is_ok() || proof.unchanged(), "refused, {shown}");
    assert!(inputs.iter().all(Guarded::unchanged), "inputs, {shown}");
    second.map(|len| expected[..len].to_vec())
}

/// Checks by both; gives the answer. What is lent must be as before.
pub fn compare_check(random: &mut Random, call: &Check) -> Result<(), u32> {
    let inputs = Guarded::holding_each(random, call.inputs());
    let lent = inputs.each_ref().map(Guarded::get);
    let mut work = works::Lent::new(random, &call.circuit, call.work_len);
    let mut expected_work = work.copy();
    let second = check_by!(reference::proof, lent, &mut expected_work);
    let ours = check_by!(wivulameno::proof, lent, &mut Work::lent(work.bytes()));
    let shown = call.shown();
    work.expect(&expected_work, &shown);
    assert_eq!(ours, second.map_err(wivulameno::Refusal::of), "{shown}");
    assert!(inputs.iter().all(Guarded::unchanged), "inputs, {shown}");
    second
}

/// For each instance of a proof that is in form its hidden party, if chosen, and
/// its place.
pub fn places(sizes: Sizes, call: &Check) -> Vec<(Option<u8>, usize, usize)> {
    let hidden = call.hidden();
    let n = u32::from(call.proof[4]);
    let parts = parts(sizes, n, &hidden, &call.proof).expect("all parts");
    let mut start = HEADER + parts.cover.len();
    let places = hidden.into_iter().zip(parts.stretches).map(|(p, part)| {
        start += part.len();
        (p, start - part.len(), part.len())
    });
    places.collect()
}

/// The place of the opened nodes in a proof that is in form.
pub fn cover_place(call: &Check) -> Range<usize> {
    HEADER..HEADER + cover_len(&call.hidden())
}
