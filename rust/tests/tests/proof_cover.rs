//! The opened nodes of the masters' tree in a proof: they give the masters that are not
//! chosen and no other, and a forged cover is refused with 12 or 13.

use reference::masters::{opened_masters, opened_nodes, opened_values};
use reference::proof::{h_star, instances, written, written_answers, Counts, Header, Instance};
use reference::seeds::{tree_leaves, Context, Salt, Value};
use tests::calls::{Setting, COUNTS};
use tests::outcomes::Outcomes;
use tests::proofs::{compare_check, compare_prove, cover_place, places, Check, Prove, HEADER};
use tests::random::Random;

/// The j of the node rule in the masters' tree.
const J: u16 = 65_535;

/// A proof by both, with its root, its salt and the instances that it chooses.
struct Proved {
    setting: Setting,
    root: Value,
    salt: Salt,
    check: Check,
    chosen: Vec<bool>,
}

impl Proved {
    fn of(random: &mut Random, counts: [u32; 2], n: u32) -> Proved {
        let setting = Setting::of_sizes(random, [9, 3, 12], n);
        let call = Prove::of(random, &setting, counts, 5);
        let proof = compare_prove(random, &call).expect("proved");
        let check = call.check(&proof);
        assert_eq!(compare_check(random, &check), Ok(()));
        Proved {
            setting,
            root: call.root[..].try_into().expect("16 bytes"),
            salt: call.salt[..].try_into().expect("32 bytes"),
            chosen: check.hidden().iter().map(Option::is_some).collect(),
            check,
        }
    }

    /// One of these counts whose cover has this many nodes or more.
    fn with_nodes(random: &mut Random, counts: [u32; 2], n: u32, least: usize) -> Proved {
        loop {
            let proved = Proved::of(random, counts, n);
            if proved.nodes().len() >= least {
                return proved;
            }
        }
    }

    /// The values of the opened nodes, as they stand in the proof.
    fn nodes(&self) -> Vec<Value> {
        let bytes = &self.check.proof[cover_place(&self.check)];
        let values = bytes.chunks(16);
        values.map(|value| value.try_into().unwrap()).collect()
    }

    /// The check of the same proof with another cover.
    fn with(&self, nodes: &[Value]) -> Check {
        let mut check = self.check.clone();
        let place = cover_place(&check);
        drop(check.proof.splice(place, nodes.concat()));
        check
    }

    fn masters(&self) -> Vec<Value> {
        let m = self.chosen.len();
        let mut masters = vec![0; 16 * m];
        let (salt, root) = (&self.salt, &self.root);
        let answer = wivulameno::seeds::masters(m as u32, salt, root, &mut masters);
        answer.expect("no refusal");
        let values = masters.chunks(16);
        values.map(|value| value.try_into().unwrap()).collect()
    }
}

/// Small and large counts, with few chosen and with many.
const SOME: [[u32; 2]; 9] = [
    [2, 1],
    [3, 1],
    [5, 2],
    [8, 3],
    [9, 1],
    [9, 8],
    [33, 12],
    [64, 40],
    [100, 9],
];

/// The values of all nodes, by their numbers from 1: those of nodes 2k and 2k + 1 are
/// SHAKE128 of 2, the salt, 65,535, k and the value of k.
fn all_nodes(salt: Salt, root: Value, leaves: usize) -> Vec<Value> {
    let mut nodes = vec![[0; 16], root];
    for k in 1..leaves {
        let mut children = [0; 32];
        let (low, high) = ((k % 256) as u8, (k / 256) as u8);
        let input = [&[2], &salt[..], &[255, 255, low, high], &nodes[k]].concat();
        wivulameno::shake128(&input, &mut children);
        nodes.extend(
            children
                .chunks(16)
                .map(|half| -> Value { half.try_into().unwrap() }),
        );
    }
    nodes
}

#[test]
fn nodes_by_the_rule() {
    let salt = [5; 32];
    let nodes = all_nodes(salt, [3; 16], 8);
    assert_eq!(nodes[8..], tree_leaves(Context { salt, j: J }, 8, [3; 16]));
}

/// Every master that is not chosen follows, no chosen one does; and neither a chosen
/// master nor a node above one stands anywhere in the proof.
#[test]
fn a_proof_gives_the_masters_that_are_not_chosen() {
    let mut random = Random::new(161);
    for n in COUNTS {
        for counts in SOME {
            let proved = Proved::of(&mut random, counts, n);
            let opened = opened_masters(&proved.chosen, proved.salt, &proved.nodes());
            let masters = proved.masters();
            for (j, &chosen) in proved.chosen.iter().enumerate() {
                let expected = (!chosen).then_some(masters[j]);
                assert_eq!(opened[j], expected, "{counts:?}, instance {j}");
            }
            let leaves = proved.chosen.len().next_power_of_two();
            let all = all_nodes(proved.salt, proved.root, leaves);
            let chosen = (0..).zip(&proved.chosen).filter(|(_, chosen)| **chosen);
            for (j, _) in chosen {
                let mut node = leaves + j;
                assert_eq!(all[node], masters[j]);
                while node > 0 {
                    let mut places = proved.check.proof.windows(16);
                    assert!(!places.any(|bytes| bytes == all[node]), "node {node}");
                    node /= 2;
                }
            }
        }
    }
}

/// Two nodes exchanged, so that they do not ascend.
#[test]
fn exchanged_nodes() {
    let mut random = Random::new(162);
    for (n, counts) in COUNTS
        .into_iter()
        .zip([[5, 2], [8, 3], [33, 12], [100, 9], [9, 4], [6, 2]])
    {
        let proved = Proved::with_nodes(&mut random, counts, n, 2);
        let nodes = proved.nodes();
        for b in 0..nodes.len() {
            for a in 0..b {
                let mut exchanged = nodes.clone();
                exchanged.swap(a, b);
                let answer = compare_check(&mut random, &proved.with(&exchanged));
                assert_eq!(answer, Err(13), "{counts:?}, {a} and {b}");
            }
        }
        let mut turned = nodes.clone();
        turned.reverse();
        assert_eq!(compare_check(&mut random, &proved.with(&turned)), Err(13));
    }
}

/// One node too few or too many, at every place, also where the new one is right: the
/// two children of a node in its place, and the first one twice.
#[test]
fn another_number_of_nodes() {
    let mut random = Random::new(163);
    for n in COUNTS {
        for counts in [[2, 1], [5, 2], [8, 3], [33, 12]] {
            let proved = Proved::of(&mut random, counts, n);
            let (nodes, numbers) = (proved.nodes(), opened_nodes(&proved.chosen));
            let leaves = proved.chosen.len().next_power_of_two();
            let all = all_nodes(proved.salt, proved.root, leaves);
            for place in 0..nodes.len() {
                let mut refused = |change: &dyn Fn(&mut Vec<Value>)| {
                    let mut other = nodes.clone();
                    change(&mut other);
                    let answer = compare_check(&mut random, &proved.with(&other));
                    assert_eq!(answer, Err(12), "{counts:?}, node {place}");
                };
                refused(&|other| other.retain(|node| node != &nodes[place]));
                refused(&|other| other.insert(place, nodes[place]));
                refused(&|other| other.insert(place, [0; 16]));
                let k = numbers[place];
                if k < leaves {
                    let children = [all[2 * k], all[2 * k + 1]];
                    refused(&|other| drop(other.splice(place..place + 1, children)));
                }
            }
            assert_eq!(compare_check(&mut random, &proved.with(&[])), Err(12));
            let root = [proved.root];
            let answer = compare_check(&mut random, &proved.with(&root));
            let expected = if nodes.len() == 1 { 13 } else { 12 };
            assert_eq!(answer, Err(expected), "the root, {counts:?}");
        }
    }
}

/// One node less or more, and as many bytes more or less behind the nodes: the length is
/// right, and all parts are out of their places.
#[test]
fn another_number_of_nodes_in_the_right_length() {
    let mut random = Random::new(164);
    let mut outcomes = Outcomes::default();
    for _ in 0..40 {
        for n in COUNTS {
            let proved = Proved::of(&mut random, [8, 3], n);
            let (len, end) = (proved.check.proof.len(), cover_place(&proved.check).end);
            let mut less = proved.with(&proved.nodes()[1..]);
            less.proof.extend([0; 16]);
            let mut more = proved.with(&[&proved.nodes()[..], &[[0; 16]]].concat());
            more.proof.truncate(len);
            let mut moved = proved.check.clone();
            moved.proof[HEADER..end + 32].rotate_left(16);
            for call in [less, more, moved] {
                assert_eq!(call.proof.len(), len);
                let refusal = compare_check(&mut random, &call).expect_err("forged");
                outcomes.add(refusal);
            }
        }
    }
    outcomes.expect(&[7, 10, 13], 20);
}

/// In the place of a node: each other node of the tree, the one of another root, the one
/// of another salt, and one with the bytes turned round.
#[test]
fn another_node_in_its_place() {
    let mut random = Random::new(165);
    for n in COUNTS {
        for counts in [[2, 1], [5, 2], [9, 4]] {
            let proved = Proved::of(&mut random, counts, n);
            let (nodes, numbers) = (proved.nodes(), opened_nodes(&proved.chosen));
            let leaves = proved.chosen.len().next_power_of_two();
            let all = all_nodes(proved.salt, proved.root, leaves);
            let others = all_nodes(proved.salt, [0x33; 16], leaves);
            let other_salt = all_nodes([0x33; 32], proved.root, leaves);
            for (place, &k) in numbers.iter().enumerate() {
                assert_eq!(nodes[place], all[k]);
                let same_tree = (1..2 * leaves).filter(|&node| node != k);
                let mut values: Vec<Value> = same_tree.map(|node| all[node]).collect();
                values.extend([others[k], other_salt[k]]);
                let mut turned = all[k];
                turned.reverse();
                values.push(turned);
                for value in values {
                    let mut other = nodes.clone();
                    other[place] = value;
                    let answer = compare_check(&mut random, &proved.with(&other));
                    assert_eq!(answer, Err(13), "{counts:?}, node {k}");
                }
            }
        }
    }
}

fn made(proved: &Proved, salt: Salt, root: Value) -> (Vec<Instance>, Counts) {
    let Setting {
        circuit, witness, ..
    } = &proved.setting;
    let counts = Counts {
        m: proved.chosen.len() as u32,
        tau: proved.chosen.iter().filter(|chosen| **chosen).count() as u32,
        n: proved.setting.n,
    };
    (instances(circuit, witness, root, salt, counts), counts)
}

/// The cover of other hidden leaves, of each set of as many as are chosen: accepted only
/// where these are the chosen ones.
#[test]
fn the_cover_of_another_set() {
    let mut random = Random::new(166);
    for n in COUNTS {
        let proved = Proved::of(&mut random, [6, 2], n);
        let mut outcomes = Outcomes::default();
        for set in 0..1_usize << 6 {
            let hidden: Vec<bool> = (0..6).map(|leaf| set >> leaf & 1 != 0).collect();
            if set.count_ones() != 2 {
                continue;
            }
            let cover = opened_values(&hidden, proved.salt, proved.root);
            let answer = compare_check(&mut random, &proved.with(&cover));
            let expected = match cover.len() == proved.nodes().len() {
                _ if hidden == proved.chosen => Ok(()),
                true => Err(13),
                false => Err(12),
            };
            assert_eq!(answer, expected, "n {n}, {hidden:?}");
            outcomes.add_answer(&answer);
        }
        outcomes.expect(&[0, 12, 13], 1);
    }
}

/// Instances of a proof of which some are those of another salt or another root, and which
/// ones these are.
fn mixed(random: &mut Random, proved: &Proved, other: (Salt, Value)) -> (Vec<Instance>, Vec<bool>) {
    let (mut mixed, _) = made(proved, proved.salt, proved.root);
    let (others, _) = made(proved, other.0, other.1);
    let mut is_other = vec![false; mixed.len()];
    for (j, other) in others.into_iter().enumerate() {
        if random.once_in(3) {
            mixed[j] = other;
            is_other[j] = true;
        }
    }
    (mixed, is_other)
}

/// The check of the file that these instances lead to under the proof's salt.
fn forged(proved: &Proved, instances: &[Instance]) -> Check {
    let (_, counts) = made(proved, proved.salt, proved.root);
    let header = Header::of(instances, proved.salt, counts);
    let statement = proved.check.statement();
    let proof = written(proved.root, instances, statement, header);
    Check {
        proof,
        ..proved.check.clone()
    }
}

fn a_small_proof(random: &mut Random) -> Proved {
    let n = random.pick(&COUNTS);
    let m = random.from_to(2, 7);
    let tau = random.from_to(1, m - 1);
    Proved::of(random, [m as u32, tau as u32], n)
}

/// A prover with two roots: some instances, and their digests, are those of another
/// tree. Accepted exactly where all of these are chosen.
#[test]
fn masters_of_two_trees() {
    let mut random = Random::new(167);
    let mut outcomes = Outcomes::default();
    for _ in 0..300 {
        let proved = a_small_proof(&mut random);
        let other = (proved.salt, [0x33; 16]);
        let (instances, is_other) = mixed(&mut random, &proved, other);
        let call = forged(&proved, &instances);
        let mut hidden = call.hidden().into_iter().zip(is_other);
        let met = hidden.any(|(hidden, is_other)| is_other && hidden.is_none());
        let expected = if met { Err(13) } else { Ok(()) };
        let answer = compare_check(&mut random, &call);
        assert_eq!(answer, expected, "{}", call.shown());
        outcomes.add_answer(&answer);
    }
    outcomes.expect(&[0, 13], 50);
}

/// A prover with two salts: some instances are made with another one than the header's.
/// Refused wherever there is such an instance, chosen or not.
#[test]
fn instances_of_two_salts() {
    let mut random = Random::new(160);
    let mut outcomes = Outcomes::default();
    for _ in 0..300 {
        let proved = a_small_proof(&mut random);
        let mut salt = proved.salt;
        salt[random.below(32)] ^= 1 << random.below(8);
        let (instances, is_other) = mixed(&mut random, &proved, (salt, proved.root));
        let call = forged(&proved, &instances);
        let answer = compare_check(&mut random, &call);
        let shown = call.shown();
        assert_eq!(answer.is_err(), is_other.contains(&true), "{shown}");
        assert!(
            matches!(answer, Ok(()) | Err(10 | 13)),
            "{answer:?}, {shown}"
        );
        outcomes.add_answer(&answer);
    }
    outcomes.expect(&[0, 10, 13], 30);
}

/// The layout with a master in each stretch that is not chosen, and no nodes: the master
/// of the tree does not help, and the length is another but where it happens to be the
/// same.
#[test]
fn masters_in_the_stretches() {
    let mut random = Random::new(168);
    let mut another_length = 0;
    for n in COUNTS {
        for counts in SOME {
            let proved = Proved::of(&mut random, counts, n);
            let mut proof = proved.check.proof[..HEADER].to_vec();
            let masters = proved.masters();
            let places = places(proved.setting.sizes, &proved.check);
            for (master, (hidden, start, len)) in masters.iter().zip(places) {
                if hidden.is_none() {
                    proof.extend(master);
                }
                proof.extend(&proved.check.proof[start..][..len]);
            }
            let call = Check {
                proof,
                ..proved.check.clone()
            };
            let same_length = call.proof.len() == proved.check.proof.len();
            let answer = compare_check(&mut random, &call);
            if call.proof == proved.check.proof {
                // One instance before all chosen ones, and its master is the one node.
                assert_eq!(answer, Ok(()));
                continue;
            }
            let refusal = answer.expect_err("another layout");
            assert_eq!(refusal == 12, !same_length, "{counts:?}");
            another_length += usize::from(refusal == 12);
        }
    }
    assert!(another_length >= 20, "{another_length}");
}

/// The nodes come right behind the header, and the stretches right behind the nodes: the
/// file is put together here by hand from the reference's parts.
#[test]
fn the_layout() {
    let mut random = Random::new(169);
    for n in COUNTS {
        for counts in SOME {
            let proved = Proved::of(&mut random, counts, n);
            let (made, counts) = made(&proved, proved.salt, proved.root);
            let mut file = vec![counts.m as u8, 0, counts.tau as u8, 0, n as u8, 0];
            file.extend(h_star(&made));
            file.extend(proved.salt);
            for k in opened_nodes(&proved.chosen) {
                let leaves = proved.chosen.len().next_power_of_two();
                file.extend(all_nodes(proved.salt, proved.root, leaves)[k]);
            }
            let hidden = proved.check.hidden();
            let header = Header::of(&made, proved.salt, counts);
            let answers = written_answers(proved.root, &made, header, &hidden);
            let places = places(proved.setting.sizes, &proved.check);
            for (hidden, start, len) in places {
                assert_eq!(start, file.len());
                assert!(hidden.is_some() || len == 32);
                file.extend(&answers[start..][..len]);
            }
            assert!(file == proved.check.proof, "{counts:?}");
        }
    }
}
