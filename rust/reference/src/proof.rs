//! The proof file: prove and check, with all instances kept in memory.

use crate::bits::rest_is_zero;
use crate::circuit::{legal, Circuit, Sizes};
use crate::fips202::sha3_256;
use crate::masters::{all_masters, opened_masters, opened_nodes, opened_values};
use crate::mpc::{right_corrections, run_parties, run_shown, Showing};
use crate::seeds::{self, of_length, ChallengeInput, Context, Digest, Salt, Value};
use crate::work::Work;
use crate::{u16_at, Refusal};

const HEADER_LEN: usize = 70;
const VALUE_LEN: usize = 16;
const DIGEST_LEN: usize = 32;
const LONGEST_MESSAGE: usize = 4096;

/// What is proved: that the prover knows a witness for which the circuit gives
/// y. The challenge covers the circuit file, y and the message.
#[derive(Clone, Copy)]
pub struct Statement<'a> {
    pub circuit: &'a [u8],
    pub y: &'a [u8],
    pub message: &'a [u8],
}

/// M instances, tau of them chosen, n parties.
#[derive(Clone, Copy, Debug, PartialEq, Eq)]
pub struct Counts {
    pub m: u32,
    pub tau: u32,
    pub n: u32,
}

impl Counts {
    fn are_in_limits(&self) -> bool {
        (2..=512).contains(&self.m)
            && (1..self.m).contains(&self.tau)
            && seeds::parties(self.n).is_ok()
    }
}

/// What a proof starts with: M, tau, n, a zero byte, h*, the salt.
#[derive(Clone, Copy, Debug, PartialEq, Eq)]
pub struct Header {
    pub counts: Counts,
    pub h_star: Digest,
    pub salt: Salt,
}

impl Header {
    /// That of these instances, which follow from the salt.
    pub fn of(instances: &[Instance], salt: Salt, counts: Counts) -> Header {
        Header {
            counts,
            h_star: h_star(instances),
            salt,
        }
    }

    fn bytes(&self) -> Vec<u8> {
        let Counts { m, tau, n } = self.counts;
        let mut bytes = [m as u16, tau as u16].map(u16::to_le_bytes).concat();
        bytes.extend([n as u8, 0]);
        bytes.extend(self.h_star);
        bytes.extend(self.salt);
        bytes
    }

    /// That of instance j.
    fn context(&self, j: u16) -> Context {
        let salt = self.salt;
        Context { salt, j }
    }
}

/// Writes a proof to the start of `proof` and gives its length: the refusals of the
/// circuit, 6 for `work`, 8, 6, 7 and 10.
pub fn prove(
    statement: Statement,
    witness: &[u8],
    root: &[u8],
    salt: &[u8],
    counts: Counts,
    proof: &mut [u8],
    work: &mut [u8],
) -> Result<usize, Refusal> {
    let circuit = legal(statement.circuit)?;
    let sizes = circuit.sizes();
    let _work = Work::lent(sizes, work)?;
    if !counts.are_in_limits() {
        return Err(8);
    }
    let (root, salt) = (of_length(root)?, of_length(salt)?);
    if witness.len() != sizes.inputs_len() || proof.len() < longest(sizes, counts) {
        return Err(6);
    }
    lengths_of(statement, sizes)?;
    if !rest_is_zero(witness, sizes.inputs) || !rest_is_zero(statement.y, sizes.outputs) {
        return Err(7);
    }
    if circuit.output(witness) != statement.y {
        return Err(10);
    }
    let instances = all_instances(&circuit, witness, root, salt, counts);
    let header = Header::of(&instances, salt, counts);
    let file = written(root, &instances, statement, header);
    proof[..file.len()].copy_from_slice(&file);
    Ok(file.len())
}

/// Does the proof show the statement? The refusals of the circuit, 6 for `work`, 6, 7,
/// 11, 12, 7, 10 and 13.
pub fn check(statement: Statement, proof: &[u8], work: &mut [u8]) -> Result<(), Refusal> {
    let circuit = legal(statement.circuit)?;
    let sizes = circuit.sizes();
    let _work = Work::lent(sizes, work)?;
    Checkable::of_circuit(circuit, statement, proof)?.check()
}

/// Does the proof of a circuit file that is legal answer the challenge that hides
/// these parties? Refusals 12, 7, 10 and 13.
pub fn check_answers(
    circuit: &[u8],
    y: &[u8],
    hidden: &[Option<u8>],
    proof: &[u8],
) -> Result<(), Refusal> {
    let circuit = legal(circuit).expect("a legal circuit");
    Checkable::answering(circuit, y, hidden, proof)?.check()
}

/// A proof that passes all tests of check but those for 10 and 13, ready to be checked
/// instance by instance.
pub struct Checkable<'a> {
    circuit: Circuit,
    y: &'a [u8],
    header: Header,
    instances: Vec<Received<'a>>,
}

impl<'a> Checkable<'a> {
    /// The refusals of check but that for the work buffer, 10 and 13.
    pub fn of(statement: Statement<'a>, proof: &'a [u8]) -> Result<Checkable<'a>, Refusal> {
        Checkable::of_circuit(legal(statement.circuit)?, statement, proof)
    }

    /// What follows the tests of the circuit: 6, 7, 11, 12 and 7.
    fn of_circuit(
        circuit: Circuit,
        statement: Statement<'a>,
        proof: &'a [u8],
    ) -> Result<Checkable<'a>, Refusal> {
        let sizes = circuit.sizes();
        lengths_of(statement, sizes)?;
        if !rest_is_zero(statement.y, sizes.outputs) {
            return Err(7);
        }
        let header = header(proof).ok_or(11_u32)?;
        let hidden = hidden_parties(statement, header);
        Checkable::answering(circuit, statement.y, &hidden, proof)
    }

    /// The proof has a header, whose challenge hides these parties: 12 and 7.
    fn answering(
        circuit: Circuit,
        y: &'a [u8],
        hidden: &[Option<u8>],
        proof: &'a [u8],
    ) -> Result<Checkable<'a>, Refusal> {
        let header = header(proof).expect("a header");
        let sizes = circuit.sizes();
        let instances = received(sizes, header, hidden, proof).ok_or(12_u32)?;
        if !instances.iter().all(|part| part.unused_is_zero(sizes)) {
            return Err(7);
        }
        Ok(Checkable {
            circuit,
            y,
            header,
            instances,
        })
    }

    /// M, the number of instances.
    pub fn instances(&self) -> usize {
        self.instances.len()
    }

    /// Checks instance j and gives h_j and h'_j; 10 if its output is not y.
    pub fn instance(&self, j: usize) -> Result<[Digest; 2], Refusal> {
        let (context, n) = (self.header.context(j as u16), self.header.counts.n as usize);
        let Checked { digests, output } = self.instances[j].checked(&self.circuit, context, n);
        match output.is_some_and(|output| output != self.y) {
            true => Err(10),
            false => Ok(digests),
        }
    }

    /// Is h* that of these h_j and h'_j? Else 13.
    pub fn fits(&self, digests: &[[Digest; 2]]) -> Result<(), Refusal> {
        match digest_of_all(digests) == self.header.h_star {
            true => Ok(()),
            false => Err(13),
        }
    }

    fn check(&self) -> Result<(), Refusal> {
        let all = (0..self.instances()).map(|j| self.instance(j));
        let digests: Vec<[Digest; 2]> = all.collect::<Result<_, _>>()?;
        self.fits(&digests)
    }
}

/// 6 if y or the message has not a length as stated.
fn lengths_of(statement: Statement, sizes: Sizes) -> Result<(), Refusal> {
    let good = statement.y.len() == sizes.y_len() && statement.message.len() <= LONGEST_MESSAGE;
    good.then_some(()).ok_or(6)
}

/// The room for every proof of these counts: an opened node for each instance that is
/// not chosen, and corrections in each chosen one.
pub fn longest(sizes: Sizes, counts: Counts) -> usize {
    let (m, tau) = (counts.m as usize, counts.tau as usize);
    let not_chosen = VALUE_LEN + stretch_len(sizes, counts.n, None);
    let chosen = stretch_len(sizes, counts.n, Some(0));
    HEADER_LEN + (m - tau) * not_chosen + tau * chosen
}

/// The bytes of one instance in the proof, `hidden` its hidden party if chosen.
pub fn stretch_len(sizes: Sizes, n: u32, hidden: Option<u8>) -> usize {
    let Some(p) = hidden else {
        return DIGEST_LEN;
    };
    let siblings = VALUE_LEN * n.ilog2() as usize;
    let corrections = match u32::from(p) == n - 1 {
        true => 0,
        false => sizes.corrections_len(),
    };
    siblings + corrections + DIGEST_LEN + sizes.inputs_len() + sizes.row_len()
}

/// For each instance its hidden party, if the challenge chooses it.
pub fn hidden_parties(statement: Statement, header: Header) -> Vec<Option<u8>> {
    let Counts { m, tau, n } = header.counts;
    let input = ChallengeInput {
        h_star: &header.h_star,
        salt: &header.salt,
        circuit_digest: &sha3_256(statement.circuit),
        y: statement.y,
        message: statement.message,
    };
    asked(m, &seeds::chosen([m, tau, n], input))
}

/// For each of m instances its hidden party, if it is among the chosen.
pub fn asked(m: u32, chosen: &[(u16, u8)]) -> Vec<Option<u8>> {
    let mut hidden = vec![None; m as usize];
    for &(j, p) in chosen {
        hidden[usize::from(j)] = Some(p);
    }
    hidden
}

/// The header, if these bytes start with one.
pub fn header(proof: &[u8]) -> Option<Header> {
    let bytes = proof.get(..HEADER_LEN)?;
    let counts = Counts {
        m: u16_at(bytes, 0) as u32,
        tau: u16_at(bytes, 2) as u32,
        n: bytes[4].into(),
    };
    let header = Header {
        counts,
        h_star: bytes[6..38].try_into().unwrap(),
        salt: bytes[38..].try_into().unwrap(),
    };
    (counts.are_in_limits() && bytes[5] == 0).then_some(header)
}

/// The chosen instances: their masters are the hidden leaves of the masters' tree.
fn is_chosen(hidden: &[Option<u8>]) -> Vec<bool> {
    hidden.iter().map(Option::is_some).collect()
}

/// The bytes of the opened nodes in the proof.
pub fn cover_len(hidden: &[Option<u8>]) -> usize {
    VALUE_LEN * opened_nodes(&is_chosen(hidden)).len()
}

/// What follows the header of a proof.
pub struct Parts<'a> {
    /// The values of the opened nodes, ascending by their numbers.
    pub cover: &'a [u8],
    /// The part of each instance.
    pub stretches: Vec<&'a [u8]>,
}

/// The parts of the proof, if its length is that of all parts.
pub fn parts<'a>(
    sizes: Sizes,
    n: u32,
    hidden: &[Option<u8>],
    proof: &'a [u8],
) -> Option<Parts<'a>> {
    let (cover, mut rest) = proof[HEADER_LEN..].split_at_checked(cover_len(hidden))?;
    let mut stretches = vec![];
    for &p in hidden {
        let (stretch, after) = rest.split_at_checked(stretch_len(sizes, n, p))?;
        stretches.push(stretch);
        rest = after;
    }
    rest.is_empty().then_some(Parts { cover, stretches })
}

/// Tags 9, 10 and 11: h* over all h_j and all h'_j.
fn digest_of_all(digests: &[[Digest; 2]]) -> Digest {
    let [h, h_prime] = [0, 1].map(|side| digests.iter().map(|both| both[side]).collect::<Vec<_>>());
    let h = seeds::all_commitments_digest(&h);
    let h_prime = seeds::all_broadcasts_digest(&h_prime);
    seeds::h_star(h, h_prime)
}

/// What follows from the master of instance j: the seed and the r of each
/// party, the tapes and the corrections.
pub struct Preprocessing {
    pub context: Context,
    pub master: Value,
    pub seeds: Vec<[Value; 2]>,
    pub tapes: Vec<u8>,
    pub corrections: Vec<u8>,
}

impl Preprocessing {
    fn of(circuit: &Circuit, context: Context, n: usize, master: Value) -> Preprocessing {
        let leaves = seeds::tree_leaves(context, n, master);
        let seeds: Vec<[Value; 2]> = (0..)
            .zip(leaves)
            .map(|(i, leaf)| seeds::seed_and_r(context, i, leaf))
            .collect();
        let sizes = circuit.sizes();
        let rows = (0..).zip(&seeds);
        let rows = rows.map(|(i, [seed, _])| tape_row(sizes, context, i, n, *seed));
        let tapes = rows.collect::<Vec<_>>().concat();
        Preprocessing {
            context,
            master,
            corrections: right_corrections(circuit, n, &tapes),
            seeds,
            tapes,
        }
    }

    /// The commitments of all parties.
    pub fn commitments(&self) -> Vec<Digest> {
        let (context, n) = (self.context, self.seeds.len());
        let parties = (0..).zip(&self.seeds);
        parties
            .map(|(i, [seed, r])| seeds::commitment(context, i, n, *seed, &self.corrections, *r))
            .collect()
    }
}

fn tape_row(sizes: Sizes, context: Context, i: u8, n: usize, seed: Value) -> Vec<u8> {
    seeds::tape_row(context, i, n, seed, sizes.inputs, sizes.ands)
}

/// One instance as the prover works it.
pub struct Instance {
    pub preprocessing: Preprocessing,
    pub masked_inputs: Vec<u8>,
    pub rows: Vec<u8>,
}

impl Instance {
    fn of(circuit: &Circuit, n: usize, witness: &[u8], preprocessing: Preprocessing) -> Instance {
        let Preprocessing {
            tapes, corrections, ..
        } = &preprocessing;
        let (masked_inputs, rows, _) = run_parties(circuit, n, witness, tapes, corrections);
        Instance {
            preprocessing,
            masked_inputs,
            rows,
        }
    }

    fn h(&self) -> Digest {
        let j = self.preprocessing.context.j;
        seeds::commitments_digest(j, &self.preprocessing.commitments())
    }

    fn h_prime(&self) -> Digest {
        let j = self.preprocessing.context.j;
        seeds::broadcasts_digest(j, &self.masked_inputs, &self.rows)
    }

    /// What the proof has of this instance.
    fn stretch(&self, hidden: Option<u8>) -> Vec<u8> {
        let Preprocessing {
            context, master, ..
        } = self.preprocessing;
        let Some(p) = hidden.map(usize::from) else {
            return self.h_prime().to_vec();
        };
        let n = self.preprocessing.seeds.len();
        let siblings = seeds::tree_opening(context, n, p, master).concat();
        let corrections: &[u8] = match p == n - 1 {
            true => &[],
            false => &self.preprocessing.corrections,
        };
        let row_len = self.rows.len() / n;
        let row = &self.rows[p * row_len..][..row_len];
        let com = &self.preprocessing.commitments()[p];
        [&siblings, corrections, com, &self.masked_inputs, row].concat()
    }
}

/// All instances that follow from a root and a salt, for a circuit file that is legal and
/// a witness in form. The witness may give any output.
pub fn instances(
    file: &[u8],
    witness: &[u8],
    root: Value,
    salt: Salt,
    counts: Counts,
) -> Vec<Instance> {
    let circuit = legal(file).expect("a legal circuit");
    all_instances(&circuit, witness, root, salt, counts)
}

fn all_instances(
    circuit: &Circuit,
    witness: &[u8],
    root: Value,
    salt: Salt,
    counts: Counts,
) -> Vec<Instance> {
    let (m, n) = (counts.m as usize, counts.n as usize);
    let masters = (0..).zip(all_masters(m, salt, root));
    let instances = masters.map(|(j, master)| {
        let preprocessing = Preprocessing::of(circuit, Context { salt, j }, n, master);
        Instance::of(circuit, n, witness, preprocessing)
    });
    instances.collect()
}

/// The h* of these instances.
pub fn h_star(instances: &[Instance]) -> Digest {
    let each = instances.iter();
    let digests: Vec<[Digest; 2]> = each.map(|one| [one.h(), one.h_prime()]).collect();
    digest_of_all(&digests)
}

/// The proof file with this header, and what its challenge asks for. The cover is that
/// of the masters of this root under the header's salt.
pub fn written(
    root: Value,
    instances: &[Instance],
    statement: Statement,
    header: Header,
) -> Vec<u8> {
    let hidden = hidden_parties(statement, header);
    written_answers(root, instances, header, &hidden)
}

/// The proof file with this header, and what a challenge asks for that hides these
/// parties.
pub fn written_answers(
    root: Value,
    instances: &[Instance],
    header: Header,
    hidden: &[Option<u8>],
) -> Vec<u8> {
    let mut file = header.bytes();
    file.extend(opened_values(&is_chosen(hidden), header.salt, root).concat());
    for (instance, &p) in instances.iter().zip(hidden) {
        file.extend(instance.stretch(p));
    }
    file
}

/// What a proof has of one instance; the master follows from the opened nodes.
enum Received<'a> {
    NotChosen { master: Value, h_prime: Digest },
    Chosen(Opened<'a>),
}

/// What a proof has of an instance with party p hidden. Corrections that are
/// not sent count as zeros.
struct Opened<'a> {
    p: usize,
    siblings: Vec<Value>,
    corrections: Vec<u8>,
    com: Digest,
    masked_inputs: &'a [u8],
    row: &'a [u8],
}

/// All parts of the proof, each taken apart.
fn received<'a>(
    sizes: Sizes,
    header: Header,
    hidden: &[Option<u8>],
    proof: &'a [u8],
) -> Option<Vec<Received<'a>>> {
    let n = header.counts.n;
    let Parts { cover, stretches } = parts(sizes, n, hidden, proof)?;
    let values = cover.chunks(VALUE_LEN);
    let values: Vec<Value> = values.map(|value| value.try_into().unwrap()).collect();
    let masters = opened_masters(&is_chosen(hidden), header.salt, &values);
    let each = stretches.into_iter().zip(hidden).zip(masters);
    let received = each.map(|((stretch, &hidden), master)| match (hidden, master) {
        (Some(p), _) => Received::Chosen(Opened::of(sizes, n as usize, p.into(), stretch)),
        (None, master) => Received::NotChosen {
            master: master.expect("every unhidden leaf follows"),
            h_prime: stretch.try_into().unwrap(),
        },
    });
    Some(received.collect())
}

/// What follows from a part of the proof: h_j and h'_j, and the output if it was
/// replayed.
struct Checked {
    digests: [Digest; 2],
    output: Option<Vec<u8>>,
}

impl Received<'_> {
    fn unused_is_zero(&self, sizes: Sizes) -> bool {
        let Received::Chosen(opened) = self else {
            return true;
        };
        rest_is_zero(&opened.corrections, sizes.ands)
            && rest_is_zero(opened.masked_inputs, sizes.inputs)
            && rest_is_zero(opened.row, sizes.ands + sizes.outputs)
    }

    fn checked(&self, circuit: &Circuit, context: Context, n: usize) -> Checked {
        match self {
            Received::NotChosen { master, h_prime } => {
                let made = Preprocessing::of(circuit, context, n, *master);
                Checked {
                    digests: [
                        seeds::commitments_digest(context.j, &made.commitments()),
                        *h_prime,
                    ],
                    output: None,
                }
            }
            Received::Chosen(opened) => opened.replayed(circuit, context, n),
        }
    }
}

impl<'a> Opened<'a> {
    /// Takes a stretch of the right length apart.
    fn of(sizes: Sizes, n: usize, p: usize, mut stretch: &'a [u8]) -> Opened<'a> {
        let mut next = |len| {
            let (part, rest) = stretch.split_at(len);
            stretch = rest;
            part
        };
        let siblings = (0..n.ilog2()).map(|_| next(VALUE_LEN).try_into().unwrap());
        Opened {
            p,
            siblings: siblings.collect(),
            corrections: match p == n - 1 {
                true => vec![0; sizes.corrections_len()],
                false => next(sizes.corrections_len()).to_vec(),
            },
            com: next(DIGEST_LEN).try_into().unwrap(),
            masked_inputs: next(sizes.inputs_len()),
            row: next(sizes.row_len()),
        }
    }

    /// The commitments and tapes of the parties that are opened, com_p and a row
    /// of zeros for p; then the run of the others.
    fn replayed(&self, circuit: &Circuit, context: Context, n: usize) -> Checked {
        let sizes = circuit.sizes();
        let (mut commitments, mut tapes) = (vec![], vec![]);
        let leaves = seeds::opened_leaves(context, n, self.p, &self.siblings);
        for (i, leaf) in (0..).zip(leaves) {
            let Some(leaf) = leaf else {
                commitments.push(self.com);
                tapes.extend(vec![0; sizes.tape_row_len()]);
                continue;
            };
            let [seed, r] = seeds::seed_and_r(context, i, leaf);
            let com = seeds::commitment(context, i, n, seed, &self.corrections, r);
            commitments.push(com);
            tapes.extend(tape_row(sizes, context, i, n, seed));
        }
        let showing = Showing {
            tapes: &tapes,
            corrections: &self.corrections,
            masked_inputs: self.masked_inputs,
            row: self.row,
        };
        let (rows, output) = run_shown(circuit, n, self.p, showing);
        let h = seeds::commitments_digest(context.j, &commitments);
        let h_prime = seeds::broadcasts_digest(context.j, self.masked_inputs, &rows);
        Checked {
            digests: [h, h_prime],
            output: Some(output),
        }
    }
}

#[cfg(test)]
mod tests {
    use super::*;
    use crate::examples::{FOUR, K, SALT};

    /// The statement that `FOUR` gives 6, as it does for the witness 6.
    const FOUR_GIVES_6: Statement = Statement {
        circuit: &FOUR,
        y: &[6],
        message: b"a message",
    };
    const ROOT: [u8; 16] = [0, 1, 2, 3, 4, 5, 6, 7, 8, 9, 10, 11, 12, 13, 14, 15];

    fn counts(m: u32, tau: u32, n: u32) -> Counts {
        Counts { m, tau, n }
    }

    /// More than the circuits here ask for, and not zero.
    fn a_work() -> Vec<u8> {
        vec![0xa5; 5000]
    }

    fn checked(statement: Statement, proof: &[u8]) -> Result<(), Refusal> {
        check(statement, proof, &mut a_work())
    }

    /// The proof in a buffer of the length that is asked for, and `more`.
    fn proved(
        statement: Statement,
        witness: &[u8],
        root: &[u8],
        counts: Counts,
        more: usize,
    ) -> Result<Vec<u8>, Refusal> {
        salted(statement, witness, [root, &SALT], counts, more)
    }

    /// The same, with a root and a salt.
    fn salted(
        statement: Statement,
        witness: &[u8],
        [root, salt]: [&[u8]; 2],
        counts: Counts,
        more: usize,
    ) -> Result<Vec<u8>, Refusal> {
        let sizes = crate::circuit::read(statement.circuit)?;
        let mut proof = vec![0xa5; longest(sizes, counts) + more];
        let work = &mut a_work();
        let len = prove(statement, witness, root, salt, counts, &mut proof, work)?;
        assert!(proof[len..].iter().all(|&byte| byte == 0xa5));
        proof.truncate(len);
        Ok(proof)
    }

    fn hex(bytes: &[u8]) -> String {
        bytes.iter().map(|byte| format!("{byte:02x}")).collect()
    }

    /// Lengths and SHA3-256 of proofs that were made with Python's hashlib.
    #[test]
    fn known_proofs() {
        let known = [
            (
                counts(4, 1, 2),
                248,
                "93f070eeaed4d6effb44ffb7e0e80b14e1f5c750cde6d9ebb03e5f6ff6b355b5",
            ),
            (
                counts(5, 2, 4),
                332,
                "2f446ce6cb0d0e9a56edc2520e850ce8eca4fea3396872b966941e377a5ab889",
            ),
            (
                counts(6, 5, 8),
                532,
                "4e3c2e6da9b086e65899797ddcf4956aecb5e6ad68a3ed267cb797e9438108e6",
            ),
            (
                counts(20, 7, 16),
                1322,
                "896c1ab81bc571cce1d7f0a015b5aac6f9d3db112998c7bcc3272189c0cd56bc",
            ),
            (
                counts(300, 9, 16),
                10961,
                "e437f59c8229b73ee8d7bea1d3dd1c81ee8e24841211f1210cb7dfc6d235e896",
            ),
        ];
        let wide = [
            (
                counts(5, 2, 32),
                428,
                "d8ae0a829f9ceac319c70df2a7487a3dd4372a5954cf95b3b5c4247f00fc8e78",
            ),
            (
                counts(4, 1, 64),
                329,
                "75023891866dc2812831fdd1518ce9771d86710d98fd057675509a4d9f71d225",
            ),
            (
                counts(20, 7, 64),
                1531,
                "b70f5182869dfe955492534d93b715d23d1d497d5008c3bcdb4bacf757d9c237",
            ),
        ];
        for (counts, len, digest) in known.into_iter().chain(wide) {
            let proof = proved(FOUR_GIVES_6, &[6], &ROOT, counts, 9).unwrap();
            assert_eq!(
                (proof.len(), hex(&sha3_256(&proof)).as_str()),
                (len, digest)
            );
            assert_eq!(checked(FOUR_GIVES_6, &proof), Ok(()), "{counts:?}");
        }
    }

    /// The same with a salt of zeros, which is a salt like others.
    #[test]
    fn a_known_proof_with_a_salt_of_zeros() {
        let salt = [0; 32];
        let proof = salted(FOUR_GIVES_6, &[6], [&ROOT, &salt], counts(5, 2, 4), 0).unwrap();
        let digest = "1c172fe19df86f879f195a2098e04b2208b360dc4df05735a89b3298d41a71c1";
        assert_eq!(
            (proof.len(), hex(&sha3_256(&proof)).as_str()),
            (331, digest)
        );
        assert_eq!(checked(FOUR_GIVES_6, &proof), Ok(()));
    }

    /// The salt stands after h*, and another one is refused.
    #[test]
    fn the_salt_of_a_proof() {
        let proof = proved(FOUR_GIVES_6, &[6], &ROOT, counts(20, 7, 16), 0).unwrap();
        assert_eq!(proof[38..70], SALT);
        for bit in 0..256 {
            let mut other = proof.clone();
            other[38 + bit / 8] ^= 1 << (bit % 8);
            assert!(checked(FOUR_GIVES_6, &other).is_err(), "bit {bit}");
        }
    }

    #[test]
    fn m10_lengths() {
        let statement = Statement {
            circuit: &K,
            y: &[1],
            message: b"message",
        };
        for (root, p, len) in [(3, 0, 249), (1, 1, 248)] {
            let proof = proved(statement, &[3], &[root; 16], counts(4, 1, 2), 0).unwrap();
            let hidden = hidden_parties(statement, header(&proof).unwrap());
            let chosen: Vec<u8> = hidden.into_iter().flatten().collect();
            assert_eq!((chosen, proof.len()), (vec![p], len));
        }
    }

    #[test]
    fn a_changed_bit_is_refused() {
        let proof = proved(FOUR_GIVES_6, &[6], &ROOT, counts(5, 2, 4), 0).unwrap();
        for bit in 0..8 * proof.len() {
            let mut other = proof.clone();
            other[bit / 8] ^= 1 << (bit % 8);
            assert!(checked(FOUR_GIVES_6, &other).is_err(), "bit {bit}");
        }
    }

    #[test]
    fn refusals_of_prove_in_order() {
        let good = counts(4, 1, 2);
        let of = |circuit, y| Statement {
            circuit,
            y,
            message: &[],
        };
        let long = Statement {
            message: &[0; 4097],
            ..of(&FOUR, &[6])
        };
        let ask_salted = |statement, witness: &[u8], [root, salt]: [&[u8]; 2], counts, len| {
            let (mut proof, work) = (vec![0xa5; len], &mut a_work());
            let answer = prove(statement, witness, root, salt, counts, &mut proof, work);
            assert!(answer.is_ok() || proof == vec![0xa5; len]);
            answer
        };
        let ask = |statement, witness: &[u8], root: &[u8], counts, len| {
            ask_salted(statement, witness, [root, &SALT], counts, len)
        };
        let nothing: [&[u8]; 2] = [&[], &[]];
        let answer = ask_salted(of(&[], &[]), &[], nothing, counts(1, 1, 1), 0);
        assert_eq!(answer, Err(1));
        for counts in [counts(513, 1, 2), counts(4, 4, 2), counts(4, 1, 3)] {
            let answer = ask_salted(of(&FOUR, &[]), &[], nothing, counts, 0);
            assert_eq!(answer, Err(8));
        }
        for salt in [&[][..], &SALT[1..], &[SALT, SALT].concat()[..33]] {
            let answer = ask_salted(of(&FOUR, &[255]), &[255], [&ROOT, salt], good, 265);
            assert_eq!(answer, Err(6));
        }
        assert_eq!(ask(long, &[6], &ROOT, good, 265), Err(6));
        assert_eq!(ask(of(&FOUR, &[6]), &[255; 2], &ROOT, good, 265), Err(6));
        assert_eq!(ask(of(&FOUR, &[255; 2]), &[6], &ROOT, good, 265), Err(6));
        assert_eq!(ask(of(&FOUR, &[255]), &[6], &ROOT[1..], good, 265), Err(6));
        assert_eq!(ask(of(&FOUR, &[255]), &[255], &ROOT, good, 264), Err(6));
        assert_eq!(ask(of(&FOUR, &[5]), &[8], &ROOT, good, 265), Err(7));
        assert_eq!(ask(of(&FOUR, &[14]), &[6], &ROOT, good, 265), Err(7));
        assert_eq!(ask(of(&FOUR, &[5]), &[6], &ROOT, good, 265), Err(10));
    }

    #[test]
    fn refusals_of_check_in_order() {
        let proof = proved(FOUR_GIVES_6, &[6], &ROOT, counts(5, 2, 4), 0).unwrap();
        let with = |place: usize, byte| {
            let mut proof = proof.clone();
            proof[place] = byte;
            proof
        };
        let turned = |bits: &[(usize, u8)]| {
            let mut proof = proof.clone();
            for (place, bits) in bits {
                proof[*place] ^= bits;
            }
            proof
        };
        let long = Statement {
            message: &[0; 4097],
            ..FOUR_GIVES_6
        };
        let of_y = |y| Statement { y, ..FOUR_GIVES_6 };
        let no_circuit = Statement {
            circuit: &[],
            ..of_y(&[])
        };
        assert_eq!(checked(no_circuit, &[]), Err(1));
        assert_eq!(checked(long, &[]), Err(6));
        assert_eq!(checked(of_y(&[255, 0]), &[]), Err(6));
        assert_eq!(checked(of_y(&[14]), &[]), Err(7));
        assert_eq!(checked(FOUR_GIVES_6, &proof[..69]), Err(11));
        for (place, byte) in [
            (0, 1),
            (1, 2),
            (2, 0),
            (2, 5),
            (4, 3),
            (4, 63),
            (4, 128),
            (5, 1),
        ] {
            assert_eq!(checked(FOUR_GIVES_6, &with(place, byte)), Err(11));
        }
        assert_eq!(checked(FOUR_GIVES_6, &proof[..331]), Err(12));
        // The last stretch is of instance 4, which is chosen, with its row at the end:
        // 2 bits of AND gates, 3 of outputs, 3 out of use. Before it is the digest of
        // instance 3.
        let (row, last) = (331, 332 - (2 * 16 + 1 + 32 + 1 + 1) - 1);
        assert_eq!(checked(FOUR_GIVES_6, &turned(&[(row, 0x24)])), Err(7));
        let output = turned(&[(row, 0x04), (last, 0xff)]);
        assert_eq!(checked(FOUR_GIVES_6, &output), Err(10));
        assert_eq!(checked(FOUR_GIVES_6, &turned(&[(last, 0xff)])), Err(13));
        let output = turned(&[(row, 0x04), (70, 0xff)]);
        assert_eq!(checked(FOUR_GIVES_6, &output), Err(10));
        assert_eq!(checked(FOUR_GIVES_6, &turned(&[(70, 0xff)])), Err(13));
        assert_eq!(checked(FOUR_GIVES_6, &proof), Ok(()));
    }

    /// Instances 2 and 4 are chosen of five: nodes 4 and 11 are opened, after the
    /// header and before the stretches.
    #[test]
    fn the_cover_of_a_proof() {
        let proof = proved(FOUR_GIVES_6, &[6], &ROOT, counts(5, 2, 4), 0).unwrap();
        let hidden = hidden_parties(FOUR_GIVES_6, header(&proof).unwrap());
        assert_eq!(hidden, [None, None, Some(0), None, Some(2)]);
        assert_eq!(opened_nodes(&is_chosen(&hidden)), [4, 11]);
        let (salt, j) = (SALT, 65_535);
        let [two, _] = seeds::children(Context { salt, j }, 1, ROOT);
        let [four, _] = seeds::children(Context { salt, j }, 2, two);
        let masters = all_masters(5, SALT, ROOT);
        assert_eq!(proof[70..102], [four, masters[3]].concat());
    }

    /// A witness for another output: each replay shows it.
    #[test]
    fn a_forged_output() {
        let counts = counts(5, 2, 4);
        let instances = instances(&FOUR, &[5], ROOT, SALT, counts);
        let header = Header::of(&instances, SALT, counts);
        let proof = written(ROOT, &instances, FOUR_GIVES_6, header);
        assert_eq!(checked(FOUR_GIVES_6, &proof), Err(10));
    }
}
