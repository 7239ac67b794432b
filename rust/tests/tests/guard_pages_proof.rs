//! Prove and check, legal and damaged, with pages around each lent buffer that
//! may not be touched.

use tests::calls::Setting;
use tests::circuits::damaged;
use tests::outcomes::Outcomes;
use tests::paged::lend_with_work;
use tests::random::Random;
use tests::works;
use wivulameno::Work;

const BUDGET: usize = 500;

/// What a call of prove is lent.
struct Asked {
    setting: Setting,
    parts: [Vec<u8>; 6],
    counts: [u32; 3],
    room: usize,
    work_len: usize,
}

const CIRCUIT: usize = 0;
const WITNESS: usize = 1;
const Y: usize = 2;
const MESSAGE: usize = 3;
const ROOT: usize = 4;
const SALT: usize = 5;

impl Asked {
    fn any(random: &mut Random) -> Asked {
        let setting = Setting::any(random);
        let m = random.from_to(2, 9);
        let counts = [m, random.from_to(1, m - 1), setting.n as usize].map(|count| count as u32);
        let message_len = random.pick(&[0, 1, 20, 4096]);
        let parts = [
            setting.circuit.clone(),
            setting.witness.clone(),
            setting.y(),
            random.bytes(message_len),
            random.bytes(16),
            random.bytes(32),
        ];
        let room = reference::proof::longest(setting.sizes, reference_counts(counts));
        Asked {
            work_len: works::enough(random, &setting.circuit),
            setting,
            parts,
            counts,
            room,
        }
    }

    fn damage(&mut self, random: &mut Random) {
        match random.below(7) {
            6 => self.work_len = random.pick(&[0, 1, works::least(&self.parts[CIRCUIT]) - 1]),
            0 => self.parts[CIRCUIT] = damaged(random, &self.setting.file, &self.setting.slots),
            1 => self.counts[random.below(3)] = random.pick(&[0, 1, 3, 513, u32::MAX]),
            2 => self.room -= 1,
            3 => self.parts[MESSAGE] = vec![0; 4097],
            _ => {
                let part = random.pick(&[WITNESS, Y, ROOT, SALT]);
                damage_bytes(random, &mut self.parts[part]);
            }
        }
    }

    /// Proves; gives the answer and the proof.
    fn prove(&self, random: &mut Random) -> Result<Vec<u8>, u32> {
        let inputs = self.parts.each_ref().map(|part| &part[..]);
        let outputs = [random.bytes(self.room), random.bytes(8)];
        let work_len = self.work_len;
        let (answer, filled) =
            lend_with_work(random, &inputs, &outputs, work_len, |inputs, out, work| {
                let [proof, written] = out.try_into().unwrap_or_else(|_| panic!("two outputs"));
                let written: *mut u64 = written.as_mut_ptr().cast();
                assert!(written.is_aligned());
                let [m, tau, n] = self.counts;
                let counts = wivulameno::proof::Counts { m, tau, n };
                let statement = statement(inputs[CIRCUIT], inputs[Y], inputs[MESSAGE]);
                let [witness, root, salt] = [WITNESS, ROOT, SALT].map(|part| inputs[part]);
                // SAFETY: these are eight bytes, and aligned.
                let written = unsafe { &mut *written };
                let work = &mut Work::lent(work);
                wivulameno::proof::prove_into(
                    statement, witness, root, salt, counts, proof, written, work,
                )
            });
        answer?;
        let len = u64::from_ne_bytes(filled[1][..].try_into().unwrap()) as usize;
        assert_eq!(filled[0][len..], outputs[0][len..], "beyond the proof");
        Ok(filled[0][..len].to_vec())
    }

    fn by_reference(&self) -> Result<Vec<u8>, u32> {
        let mut proof = vec![0; self.room];
        let [circuit, witness, y, message, root, salt] = &self.parts;
        let statement = reference::proof::Statement {
            circuit,
            y,
            message,
        };
        let counts = reference_counts(self.counts);
        let (out, work) = (&mut proof, &mut vec![0; self.work_len]);
        let len = reference::proof::prove(statement, witness, root, salt, counts, out, work)?;
        proof.truncate(len);
        Ok(proof)
    }
}

fn reference_counts([m, tau, n]: [u32; 3]) -> reference::proof::Counts {
    reference::proof::Counts { m, tau, n }
}

fn statement<'a>(
    circuit: &'a [u8],
    y: &'a [u8],
    message: &'a [u8],
) -> wivulameno::proof::Statement<'a> {
    wivulameno::proof::Statement {
        circuit,
        y,
        message,
    }
}

/// A bit less or more, or another length.
fn damage_bytes(random: &mut Random, bytes: &mut Vec<u8>) {
    match random.below(4) {
        0 => drop(bytes.pop()),
        1 => bytes.push(0),
        _ if bytes.is_empty() => {}
        _ => {
            let any = random.below(bytes.len());
            let place = random.pick(&[any, bytes.len() - 1]);
            bytes[place] ^= 1 << random.below(8);
        }
    }
}

#[test]
fn proofs() {
    let mut random = Random::new(0x6b4);
    let mut outcomes = Outcomes::default();
    for _ in 0..BUDGET {
        let mut asked = Asked::any(&mut random);
        if random.once_in(2) {
            asked.damage(&mut random);
        }
        let made = asked.prove(&mut random);
        outcomes.add_answer(&made);
        assert!(made == asked.by_reference());
    }
    outcomes.expect(&[0, 1, 2, 3, 5, 6, 7, 8, 10, 19, 20, 21], 1);
}

#[test]
fn checks() {
    let mut random = Random::new(0x6b2);
    let mut outcomes = Outcomes::default();
    for _ in 0..BUDGET {
        let asked = Asked::any(&mut random);
        let mut proof = asked.prove(&mut random).expect("no refusal");
        let [mut circuit, _, mut y, mut message, ..] = asked.parts;
        match random.below(9) {
            0 => circuit = damaged(&mut random, &asked.setting.file, &asked.setting.slots),
            1 => damage_bytes(&mut random, &mut y),
            2 => damage_bytes(&mut random, &mut message),
            3 => drop(proof.splice(..6, random.bytes(6))),
            4 => proof.truncate(random.below(proof.len())),
            5 | 6 => damage_bytes(&mut random, &mut proof),
            _ => {}
        }
        let inputs = [&circuit[..], &y, &message, &proof];
        let mut work_len = works::enough(&mut random, &circuit);
        if random.once_in(12) {
            work_len = works::least(&circuit) - 1;
        }
        let (answer, _) = lend_with_work(&mut random, &inputs, &[], work_len, |inputs, _, work| {
            let statement = statement(inputs[0], inputs[1], inputs[2]);
            wivulameno::proof::check(statement, inputs[3], &mut Work::lent(work))
        });
        outcomes.add_answer(&answer);
        let second = reference::proof::Statement {
            circuit: &circuit,
            y: &y,
            message: &message,
        };
        let work = &mut vec![0; work_len];
        assert_eq!(answer, reference::proof::check(second, &proof, work));
    }
    outcomes.expect(&[0, 1, 2, 3, 5, 6, 7, 10, 11, 12, 13, 19, 20, 21], 1);
}
