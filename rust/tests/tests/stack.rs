//! What the library needs of the stack, and what it leaves there: no call takes more than
//! 96 KiB, and after a call and the burning of the stack no secret of a hidden party is
//! found in the stack or in a lent buffer.

use reference::proof::{asked, instances, Instance, Statement as Second};
use reference::seeds::{tree_leaves, Salt};
use std::collections::HashSet;
use std::hint::black_box;
use tests::calls::{Call, Setting};
use tests::circuits::{row_of_gates, File};
use tests::proofs::{longest, Prove};
use tests::random::Random;
use tests::stack::{below, used};
use wivulameno::circuit::{self, from_bristol, upgrade};
use wivulameno::limits::MAX_WORK;
use wivulameno::proof::{check, prove, Counts, Places, SharedChecker, Statement};
use wivulameno::{burn_stack, seeds, shelf, Work};

/// The promise of the header and of `docs/embedding.md`.
const MOST: usize = 96 * 1024;

/// The C functions themselves: the crate's functions burn the stack, so that its use
/// cannot be seen any more.
mod c {
    pub type In = *const u8;
    pub type Out = *mut u8;
    extern "C" {
        pub fn wv_evaluate(c: In, c_len: usize, w: In, w_len: usize, y: Out, y_len: usize) -> u32;
        pub fn wv_prepare(
            c: In,
            c_len: usize,
            n: u32,
            tapes: In,
            tapes_len: usize,
            corrections: Out,
            corrections_len: usize,
            work: Out,
            work_len: usize,
        ) -> u32;
        pub fn wv_run(
            c: In,
            c_len: usize,
            n: u32,
            w: In,
            w_len: usize,
            tapes: In,
            tapes_len: usize,
            corrections: In,
            corrections_len: usize,
            masked_inputs: Out,
            masked_inputs_len: usize,
            rows: Out,
            rows_len: usize,
            y: Out,
            y_len: usize,
            work: Out,
            work_len: usize,
        ) -> u32;
        pub fn wv_show(
            c: In,
            c_len: usize,
            n: u32,
            p: u32,
            cut: u32,
            w: In,
            w_len: usize,
            tapes: In,
            tapes_len: usize,
            shown_tapes: Out,
            shown_tapes_len: usize,
            corrections: Out,
            corrections_len: usize,
            masked_inputs: Out,
            masked_inputs_len: usize,
            row: Out,
            row_len: usize,
            work: Out,
            work_len: usize,
        ) -> u32;
        pub fn wv_prove(
            c: In,
            c_len: usize,
            w: In,
            w_len: usize,
            y: In,
            y_len: usize,
            message: In,
            message_len: usize,
            root: In,
            root_len: usize,
            salt: In,
            salt_len: usize,
            m: u32,
            tau: u32,
            n: u32,
            proof: Out,
            proof_len: usize,
            written: *mut u64,
            work: Out,
            work_len: usize,
        ) -> u32;
        pub fn wv_expand(
            j: u32,
            n: u32,
            salt: In,
            salt_len: usize,
            m: In,
            m_len: usize,
            out: Out,
            out_len: usize,
        ) -> u32;
        pub fn wv_open(
            j: u32,
            n: u32,
            p: u32,
            salt: In,
            salt_len: usize,
            m: In,
            m_len: usize,
            out: Out,
            out_len: usize,
        ) -> u32;
        pub fn wv_masters(
            m: u32,
            salt: In,
            salt_len: usize,
            root: In,
            root_len: usize,
            out: Out,
            out_len: usize,
        ) -> u32;
        pub fn wv_cover(
            m: u32,
            hidden: In,
            hidden_len: usize,
            salt: In,
            salt_len: usize,
            root: In,
            root_len: usize,
            out: Out,
            out_len: usize,
        ) -> u32;
        pub fn wv_stock(page: Out, page_len: usize, root: In, root_len: usize) -> u32;
        pub fn wv_draw(page: Out, page_len: usize, count: u64, root: Out) -> u32;
    }
}

/// The bytes of the stack that a call uses.
fn takes(name: &str, call: impl FnOnce() + Send) {
    let used = used(&below(call));
    println!("{name}: {used} bytes of stack");
    assert!(used <= MOST, "{name} takes {used} bytes of the stack");
}

/// 512 inputs, 256 outputs and 100,000 gates of any kind, in any order, for 64 parties.
fn largest() -> Setting {
    let mut random = Random::new(0x57a);
    Setting::of_sizes(&mut random, [512, 256, 100_000], 64)
}

/// Reading, and the slot of a ring through all slots.
#[test]
fn circuits() {
    let setting = largest();
    takes("read", || {
        let sizes = circuit::sizes(&setting.circuit).expect("a circuit");
        assert_eq!(sizes.gates, 100_000);
    });
    let mut ring: File = row_of_gates(100_000);
    ring.gates[99_999].next = 1;
    let ring = ring.bytes();
    takes("fault_slot", || {
        assert_eq!(circuit::fault_slot(&ring), 100_000)
    });
    let mut y = vec![0; 32];
    let (file, witness) = (&setting.circuit, &setting.witness);
    takes("evaluate", || {
        // SAFETY: the buffers are valid for their lengths.
        let answer = unsafe {
            let (c, w) = (file.as_ptr(), witness.as_ptr());
            c::wv_evaluate(c, file.len(), w, witness.len(), y.as_mut_ptr(), 32)
        };
        assert_eq!(answer, 0);
    });
    let old = row_of_gates(4096).old_bytes();
    takes("upgrade", || {
        assert!(upgrade(&old, &mut vec![0; 2 * old.len()]).is_ok());
        assert_eq!(circuit::upgrade_slot(&old), 0);
    });
}

/// The largest circuit without its last output, joined with one output.
#[test]
fn joined_circuits() {
    let mut random = Random::new(0x57e);
    let largest = Setting::of_sizes(&mut random, [512, 255, 100_000], 16);
    let one = Setting::of_sizes(&mut random, [512, 1, 0], 16);
    let mut file = vec![0; 1_601_040];
    for (first, second) in [(&largest, &one), (&one, &largest)] {
        takes("join", || {
            let answer = circuit::join(&first.circuit, &second.circuit, &mut file);
            assert_eq!(answer, Ok(1_601_040));
        });
    }
}

/// The most gates that are allowed with 256 outputs and 16 entries: 95,632 and 4,368.
#[test]
fn one_of_several_outputs() {
    let mut random = Random::new(0x57f);
    let largest = Setting::of_sizes(&mut random, [512, 256, 95_632], 16);
    let list = random.bytes(16 * 32);
    let mut file = vec![0; 20 + 16 * 100_000];
    takes("one_of", || {
        let answer = circuit::one_of(&largest.circuit, &list, &mut file);
        assert!(answer.is_ok());
    });
}

/// The first place, the last, and one behind it.
#[test]
fn small_circuits() {
    for place in [0, 1679, 1680] {
        takes("small", || {
            let answer = circuit::small(2, 1, 2, place, &mut [0; 52]);
            assert_eq!(answer, Ok((place < 1680).then_some(52)));
        });
    }
}

/// The largest text, as long as its groups make it.
#[test]
fn texts() {
    let gates = (512..100_512).map(|wire| format!("2 1 0 1 {wire} AND\n"));
    let groups = format!("100512{}{}\n", " 0".repeat(100_000), " 1".repeat(512));
    let text = format!(
        "100000 100512\n{groups}1 256\n{}",
        gates.collect::<String>()
    );
    let mut file = vec![0; 1_601_040];
    takes("from_bristol", || {
        let answer = from_bristol(text.as_bytes(), &mut file);
        assert_eq!(answer, Ok(1_601_040));
    });
}

/// The buffers of a call, as the C function is lent them.
struct Buffers {
    inputs: Vec<Vec<u8>>,
    out: Vec<Vec<u8>>,
    work: Vec<u8>,
}

impl Buffers {
    fn of(call: &Call) -> Buffers {
        Buffers {
            inputs: call.inputs.clone(),
            out: call.out_lens.iter().map(|&len| vec![0; len]).collect(),
            work: vec![0x5a; call.work_len],
        }
    }
}

#[test]
fn runs() {
    let setting = largest();
    let circuit = &setting.circuit[..];
    let (c, c_len) = (circuit.as_ptr() as usize, circuit.len());
    let mut buffers = Buffers::of(&setting.prepare());
    takes("prepare", || {
        let Buffers { inputs, out, work } = &mut buffers;
        // SAFETY: the buffers are valid for their lengths.
        let answer = unsafe {
            c::wv_prepare(
                c as c::In,
                c_len,
                setting.n,
                inputs[0].as_ptr(),
                inputs[0].len(),
                out[0].as_mut_ptr(),
                out[0].len(),
                work.as_mut_ptr(),
                work.len(),
            )
        };
        assert_eq!(answer, 0);
    });
    let mut buffers = Buffers::of(&setting.run(&buffers.out[0]));
    takes("run", || {
        let Buffers { inputs, out, work } = &mut buffers;
        // SAFETY: the buffers are valid for their lengths.
        let answer = unsafe {
            c::wv_run(
                c as c::In,
                c_len,
                setting.n,
                inputs[0].as_ptr(),
                inputs[0].len(),
                inputs[1].as_ptr(),
                inputs[1].len(),
                inputs[2].as_ptr(),
                inputs[2].len(),
                out[0].as_mut_ptr(),
                out[0].len(),
                out[1].as_mut_ptr(),
                out[1].len(),
                out[2].as_mut_ptr(),
                out[2].len(),
                work.as_mut_ptr(),
                work.len(),
            )
        };
        assert_eq!(answer, 0);
    });
    let mut buffers = Buffers::of(&setting.show(3, 100_000));
    takes("show", || {
        let Buffers { inputs, out, work } = &mut buffers;
        // SAFETY: the buffers are valid for their lengths.
        let answer = unsafe {
            c::wv_show(
                c as c::In,
                c_len,
                setting.n,
                3,
                100_000,
                inputs[0].as_ptr(),
                inputs[0].len(),
                inputs[1].as_ptr(),
                inputs[1].len(),
                out[0].as_mut_ptr(),
                out[0].len(),
                out[1].as_mut_ptr(),
                out[1].len(),
                out[2].as_mut_ptr(),
                out[2].len(),
                out[3].as_mut_ptr(),
                out[3].len(),
                work.as_mut_ptr(),
                work.len(),
            )
        };
        assert_eq!(answer, 0);
    });
    let replay = setting.replay(3, &buffers.out, &setting.y());
    takes("replay", || assert!(replay.by_library().is_ok()));
}

#[test]
fn trees_challenges_and_shelves() {
    let (mut leaves, mut out, mut siblings) = ([0; 1024], [0; 3 * 511], [0; 96]);
    let (root, mut masters, mut nodes) = ([1; 16], [0; 16 * 512], [0; 16 * 256]);
    let salt = [2; 32];
    let every_second = std::array::from_fn::<u8, 512, _>(|k| match k % 2 {
        0 => k as u8,
        _ => (k / 256) as u8,
    });
    // SAFETY, of all four: the buffers are valid for their lengths.
    takes("expand", || {
        let (salt, root, out) = (salt.as_ptr(), root.as_ptr(), leaves.as_mut_ptr());
        let answer = unsafe { c::wv_expand(0, 64, salt, 32, root, 16, out, 1024) };
        assert_eq!(answer, 0);
    });
    takes("open", || {
        let (salt, root, out) = (salt.as_ptr(), root.as_ptr(), siblings.as_mut_ptr());
        let answer = unsafe { c::wv_open(0, 64, 37, salt, 32, root, 16, out, 96) };
        assert_eq!(answer, 0);
    });
    takes("masters", || {
        let (salt, root, out) = (salt.as_ptr(), root.as_ptr(), masters.as_mut_ptr());
        let answer = unsafe { c::wv_masters(512, salt, 32, root, 16, out, 16 * 512) };
        assert_eq!(answer, 0);
    });
    takes("cover", || {
        let (hidden, out) = (every_second.as_ptr(), nodes.as_mut_ptr());
        let (salt, root) = (salt.as_ptr(), root.as_ptr());
        let answer = unsafe { c::wv_cover(512, hidden, 512, salt, 32, root, 16, out, 16 * 256) };
        assert_eq!(answer, 0);
    });
    takes("challenge", || {
        let input = seeds::ChallengeInput {
            h_star: &[1; 32],
            salt: &salt,
            circuit_digest: &[2; 32],
            y: &[3; 32],
            message: &[0; 4096],
        };
        let drawn = seeds::challenge(512, 511, 64, input, &mut out);
        assert_eq!(drawn, Ok(()));
    });
    let slots: Vec<usize> = (1..=255).collect();
    let (mut page, mut drawn) = (tests::pages::page(&slots, &[], 0), [0; 16]);
    takes("draw and stock", || {
        // SAFETY: the buffers are valid for their lengths.
        let answers = unsafe {
            let (page_len, page) = (page.len(), page.as_mut_ptr());
            let first = c::wv_draw(page, page_len, 0, drawn.as_mut_ptr());
            [first, c::wv_stock(page, page_len, root.as_ptr(), 16)]
        };
        assert_eq!((answers, drawn), ([0, 0], [1; 16]));
    });
}

/// Prove by the C function, which does not burn.
fn prove_in_c(call: &Prove, proof: &mut [u8], work: &mut [u8]) -> usize {
    let Prove {
        circuit,
        witness,
        y,
        message,
        root,
        salt,
        counts: [m, tau, n],
        ..
    } = call;
    let mut written = 0;
    // SAFETY: the buffers are valid for their lengths.
    let answer = unsafe {
        c::wv_prove(
            circuit.as_ptr(),
            circuit.len(),
            witness.as_ptr(),
            witness.len(),
            y.as_ptr(),
            y.len(),
            message.as_ptr(),
            message.len(),
            root.as_ptr(),
            root.len(),
            salt.as_ptr(),
            salt.len(),
            *m,
            *tau,
            *n,
            proof.as_mut_ptr(),
            proof.len(),
            &mut written,
            work.as_mut_ptr(),
            work.len(),
        )
    };
    assert_eq!(answer, 0);
    written as usize
}

#[test]
fn proofs() {
    let mut random = Random::new(0x57b);
    let setting = largest();
    let mut call = Prove::of(&mut random, &setting, [2, 1], 4096);
    let mut work = vec![0x5a; call.work_len];
    let mut proof = vec![0; call.proof_len];
    let mut len = 0;
    takes("prove", || len = prove_in_c(&call, &mut proof, &mut work));
    let statement = Statement {
        circuit: &call.circuit,
        y: &call.y,
        message: &call.message,
    };
    takes("check", || {
        assert_eq!(
            check(statement, &proof[..len], &mut Work::lent(&mut work)),
            Ok(())
        );
    });
    // The most instances, of a small circuit.
    let small = Setting::of_sizes(&mut random, [9, 3, 12], 64);
    call = Prove::of(&mut random, &small, [512, 300], 4096);
    let mut proof = vec![0; call.proof_len];
    takes("prove, M 512", || {
        len = prove_in_c(&call, &mut proof, &mut work)
    });
}

/// The shared checker is lent no secret, and its functions do not burn: the largest circuit
/// for all callers, and the most instances of a small one.
#[test]
fn shared_checkers() {
    let mut random = Random::new(0x580);
    let setting = largest();
    let mut work = vec![0x5a; MAX_WORK];
    let (mut buffer, mut all) = (vec![], vec![]);
    let small = Setting::of_sizes(&mut random, [9, 3, 12], 16);
    for (setting, counts) in [(&setting, [2, 1]), (&small, [512, 300])] {
        let call = Prove::of(&mut random, setting, counts, 4096);
        let mut proof = vec![0; call.proof_len];
        let len = prove_in_c(&call, &mut proof, &mut work);
        let statement = Statement {
            circuit: &call.circuit,
            y: &call.y,
            message: &call.message,
        };
        all.push(Places::append(&mut buffer, statement, &proof[..len]));
    }
    let mut work = Work::lent(&mut work);
    let mut checker = SharedChecker::new();
    takes("shared_start", || checker = SharedChecker::new());
    for (caller, places) in [(3, all[0]), (4, all[1]), (15, all[0])] {
        takes("shared_enter", || {
            assert_eq!(checker.enter(caller, places, &buffer, &mut work), Ok(()));
        });
    }
    for (count, finished) in [
        (512, vec![(3, Ok(())), (15, Ok(()))]),
        (4, vec![(4, Ok(()))]),
    ] {
        takes("shared_check", || {
            let checked = checker.check(512, &buffer, &mut work).expect("waiting");
            assert_eq!(checked.count, count);
            assert!(checked.finished().eq(finished));
        });
    }
}

/// What must not be found after a proof: for each chosen instance its master, and the
/// leaf, the seed, the r and the first bytes of the tape of its hidden party.
fn secrets(call: &Prove, proof: &[u8]) -> Vec<Vec<u8>> {
    let [m, tau, n] = call.counts;
    let counts = reference::proof::Counts { m, tau, n };
    let root: [u8; 16] = call.root[..].try_into().expect("16 bytes");
    let salt: Salt = call.salt[..].try_into().expect("32 bytes");
    let made: Vec<Instance> = instances(&call.circuit, &call.witness, root, salt, counts);
    let statement = Second {
        circuit: &call.circuit,
        y: &call.y,
        message: &call.message,
    };
    let header = reference::proof::header(proof).expect("a header");
    let hidden = reference::proof::hidden_parties(statement, header);
    assert_eq!(asked(m, &[]).len(), hidden.len());
    let mut secrets = vec![root.to_vec()];
    for (instance, hidden) in made.iter().zip(hidden) {
        let Some(p) = hidden.map(usize::from) else {
            continue;
        };
        let preprocessing = &instance.preprocessing;
        let leaf = tree_leaves(preprocessing.context, n as usize, preprocessing.master)[p];
        let [seed, r] = preprocessing.seeds[p];
        let row_len = preprocessing.tapes.len() / n as usize;
        let row = &preprocessing.tapes[p * row_len..][..row_len.min(32)];
        secrets.extend([preprocessing.master, leaf, seed, r].map(|value| value.to_vec()));
        secrets.push(row.to_vec());
    }
    secrets
}

/// How many of these secrets have eight bytes in a row among these bytes.
fn found(secrets: &[Vec<u8>], bytes: &[u8]) -> usize {
    let windows: HashSet<&[u8]> = bytes.windows(8).collect();
    let is_found = |secret: &&Vec<u8>| secret.windows(8).any(|part| windows.contains(part));
    secrets.iter().filter(is_found).count()
}

/// A proof of a circuit whose rows are long enough to be looked for.
fn proved(n: u32) -> (Prove, Vec<Vec<u8>>) {
    let mut random = Random::new(u64::from(n));
    let setting = Setting::of_sizes(&mut random, [200, 9, 300], n);
    let call = Prove::of(&mut random, &setting, [20, 7], 40);
    let proof = call.by_reference().expect("proved");
    assert_eq!(
        call.proof_len,
        longest(setting.sizes, [20, 7, n]),
        "the room that is asked for"
    );
    let secrets = secrets(&call, &proof);
    assert_eq!(secrets.len(), 1 + 7 * 5);
    (call, secrets)
}

/// After a prove by the crate: nothing in the stack, the work buffer or the proof's
/// buffer, which is longer than the proof.
#[test]
fn no_secret_is_left() {
    for n in [2, 4, 8, 16, 32, 64] {
        let (call, secrets) = proved(n);
        let [m, tau, n] = call.counts;
        let statement = Statement {
            circuit: &call.circuit,
            y: &call.y,
            message: &call.message,
        };
        let mut work = vec![0x5a; call.work_len + 999];
        let mut proof = vec![0; call.proof_len + 999];
        let stack = below(|| {
            let counts = Counts { m, tau, n };
            let (witness, root, salt) = (&call.witness, &call.root, &call.salt);
            let work = &mut Work::lent(&mut work);
            let len = prove(statement, witness, root, salt, counts, &mut proof, work);
            assert!(len.is_ok());
        });
        assert_eq!(found(&secrets, &stack), 0, "stack, n {n}");
        assert_eq!(found(&secrets, &work), 0, "work, n {n}");
        assert_eq!(found(&secrets, &proof), 0, "proof, n {n}");
        assert!(work.iter().all(|&byte| byte == 0));
    }
}

/// The same with the C function and a burning after it, as the header tells a C host.
#[test]
fn no_secret_is_left_by_a_host_that_burns() {
    for n in [2, 16, 64] {
        let (call, secrets) = proved(n);
        let mut work = vec![0x5a; call.work_len];
        let mut proof = vec![0; call.proof_len];
        let stack = below(|| {
            prove_in_c(&call, &mut proof, &mut work);
            burn_stack();
        });
        assert_eq!(found(&secrets, &stack), 0, "stack, n {n}");
        assert_eq!(found(&secrets, &work), 0, "work, n {n}");
    }
}

/// Evaluations, corrections, runs and showings leave neither the witness nor a tape.
#[test]
fn no_tape_is_left() {
    let mut random = Random::new(0x57d);
    let setting = Setting::of_sizes(&mut random, [200, 9, 300], 8);
    let mut secrets = vec![setting.witness.clone()];
    let rows = setting.tapes.chunks(setting.sizes.tape_row_len());
    secrets.extend(rows.map(|row| row[..32].to_vec()));
    let corrections = setting.prepare().by_reference().expect("prepared");
    let calls = [
        setting.prepare(),
        setting.run(&corrections[0]),
        setting.show(2, setting.whole()),
    ];
    for call in calls {
        let stack = below(|| assert!(call.by_library().is_ok()));
        assert_eq!(found(&secrets, &stack), 0, "{}", call.shown());
    }
    let mut y = vec![0; setting.sizes.y_len()];
    let stack = below(|| {
        let answer = circuit::evaluate(&setting.circuit, &setting.witness, &mut y);
        assert_eq!(answer, Ok(()));
    });
    assert_eq!(found(&secrets, &stack), 0, "evaluate");
}

/// A function that leaves a secret on the stack.
#[inline(never)]
fn leave(secret: &[u8]) {
    let mut copy = [0; 40_000];
    copy[..secret.len()].copy_from_slice(secret);
    black_box(&mut copy);
}

/// The search itself: what is left is found, and burned it is not.
#[test]
fn what_is_left_is_found() {
    let (_, secrets) = proved(4);
    let found_after = |burned: bool| {
        let stack = below(|| {
            leave(&secrets[2]);
            if burned {
                burn_stack();
            }
        });
        found(&secrets, &stack)
    };
    assert_eq!(found_after(false), 1);
    assert_eq!(found_after(true), 0);
    assert_eq!(found(&secrets, &secrets[3..5].concat()), 2);
}

/// Draws and trees leave no root and no master.
#[test]
fn no_root_is_left() {
    let mut random = Random::new(0x57c);
    let root = random.bytes(16);
    let mut page = tests::pages::page(&[], &[1, 2, 3], 0);
    let mut masters = vec![0; 16 * 9];
    let secrets = vec![root.clone()];
    let stack = below(|| shelf::stock(&mut page, &root).expect("stocked"));
    assert_eq!(found(&secrets, &stack), 0, "stock");
    let mut drawn = Box::new([0; 16]);
    let stack = below(|| shelf::draw_into(&mut page, 0, &mut drawn).expect("drawn"));
    assert_eq!(found(&secrets, &stack), 0, "draw");
    assert_eq!((&drawn[..], found(&secrets, &page)), (&root[..], 0));
    let salt = random.bytes(32);
    let stack = below(|| seeds::masters(9, &salt, &root, &mut masters).expect("masters"));
    let all = masters.chunks(16).map(<[u8]>::to_vec);
    let all: Vec<Vec<u8>> = all.chain(secrets).collect();
    assert_eq!(found(&all, &stack), 0, "masters");
    // Leaf 8 of nine is alone in its half: the other half is one node.
    let mut nodes = vec![0; 16];
    let stack = below(|| seeds::cover(9, &[8, 0], &salt, &root, &mut nodes).expect("a cover"));
    let secrets = [root, masters[8 * 16..].to_vec()];
    assert_eq!(found(&secrets, &stack), 0, "cover");
}

/// A tree that is expanded or opened leaves no master and no leaf.
#[test]
fn no_leaf_is_left() {
    let mut random = Random::new(0x582);
    let [salt, master] = [32, 16].map(|len| random.bytes(len));
    let (mut leaves, mut siblings) = (vec![0; 16 * 8], vec![0; 16 * 3]);
    let stack = below(|| seeds::expand(7, 8, &salt, &master, &mut leaves).expect("leaves"));
    let mut secrets: Vec<Vec<u8>> = leaves.chunks(16).map(<[u8]>::to_vec).collect();
    secrets.push(master.clone());
    assert_eq!(found(&secrets, &stack), 0, "expand");
    let stack = below(|| seeds::open(7, 8, 5, &salt, &master, &mut siblings).expect("siblings"));
    assert_eq!(found(&[master, secrets[5].clone()], &stack), 0, "open");
}

/// The call overwrites more of the stack than any call takes.
fn burns(name: &str, call: impl FnOnce() + Send) {
    let used = used(&below(call));
    assert!(used > MOST, "{name} burns {used} bytes");
}

/// Every function of the crate that is lent a witness, tapes, a root, a master or a page
/// burns the stack, whether or not something was left there.
#[test]
fn calls_with_a_secret_burn() {
    let mut random = Random::new(0x583);
    let setting = Setting::of_sizes(&mut random, [9, 3, 12], 4);
    let corrections = setting.prepare().by_reference().expect("prepared");
    let calls = [
        ("prepare", setting.prepare()),
        ("run", setting.run(&corrections[0])),
        ("show", setting.show(1, setting.whole())),
    ];
    for (name, call) in calls {
        burns(name, || assert!(call.by_library().is_ok()));
    }
    let (circuit, witness) = (&setting.circuit, &setting.witness);
    burns("evaluate", || {
        assert_eq!(circuit::evaluate(circuit, witness, &mut [0]), Ok(()));
    });
    let call = Prove::of(&mut random, &setting, [3, 1], 5);
    let mut proof = vec![0; call.proof_len];
    burns("prove", || {
        let statement = Statement {
            circuit,
            y: &call.y,
            message: &call.message,
        };
        let (counts, work) = (
            Counts { m: 3, tau: 1, n: 4 },
            &mut vec![0; call.work_len][..],
        );
        let (proof, work) = (&mut proof, &mut Work::lent(work));
        let made = prove(
            statement, witness, &call.root, &call.salt, counts, proof, work,
        );
        assert!(made.is_ok());
    });
    let (salt, root) = ([5; 32], [6; 16]);
    burns("expand", || {
        assert_eq!(seeds::expand(0, 2, &salt, &root, &mut [0; 32]), Ok(()));
    });
    burns("open", || {
        assert_eq!(seeds::open(0, 2, 1, &salt, &root, &mut [0; 16]), Ok(()));
    });
    burns("masters", || {
        assert_eq!(seeds::masters(2, &salt, &root, &mut [0; 32]), Ok(()));
    });
    burns("cover", || {
        assert_eq!(seeds::cover(2, &[1, 0], &salt, &root, &mut [0; 16]), Ok(()));
    });
    let mut page = tests::pages::page(&[], &[1, 2], 0);
    burns("stock", || {
        assert_eq!(shelf::stock(&mut page, &root), Ok(()))
    });
    burns("draw", || assert_eq!(shelf::draw(&mut page, 0), Ok(root)));
}
