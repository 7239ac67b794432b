//! The library and the reference give the same masters and the same covers: every set
//! of hidden leaves of small trees, and sets of every kind up to M = 512. The cover is
//! held against what it is for: every unhidden leaf follows, no hidden one does, and no
//! fewer nodes do this.

use reference::masters::{hidden_among, opened_masters, opened_nodes};
use reference::seeds::{Salt, Value};
use tests::covers::{compare_cover, compare_masters, Cover, Masters};
use tests::random::Random;
use wivulameno::proof::most_opened;
use wivulameno::seeds::{expand, open};

/// M at powers of two and one beside them.
const EDGES: [usize; 24] = [
    2, 3, 4, 5, 7, 8, 9, 15, 16, 17, 31, 32, 33, 63, 64, 65, 127, 128, 129, 255, 256, 257, 511, 512,
];

fn values(bytes: &[u8]) -> Vec<Value> {
    let values = bytes.chunks(16);
    values.map(|value| value.try_into().unwrap()).collect()
}

/// The salt of most trees here.
const SALT: Salt = [0xd5; 32];

/// The masters, after they were compared.
fn masters_of(random: &mut Random, m: usize, root: &[u8]) -> Vec<Value> {
    salted_masters(random, m, &SALT, root)
}

fn salted_masters(random: &mut Random, m: usize, salt: &Salt, root: &[u8]) -> Vec<Value> {
    let masters = compare_masters(random, &Masters::of(m, salt, root));
    values(&masters.expect("no refusal"))
}

/// The cover, after it was compared. The leaves that follow from it are all masters
/// but the hidden ones.
fn check_cover(random: &mut Random, masters: &[Value], leaves: &[usize], root: &[u8]) -> usize {
    let m = masters.len();
    let cover = compare_cover(random, &Cover::of(m, leaves, &SALT, root));
    let cover = values(&cover.expect("no refusal"));
    let hidden = hidden_among(m, leaves);
    let opened = opened_masters(&hidden, SALT, &cover);
    for leaf in 0..m {
        let expected = (!hidden[leaf]).then_some(masters[leaf]);
        assert_eq!(opened[leaf], expected, "M {m}, leaf {leaf}, {leaves:?}");
    }
    cover.len()
}

/// Every M, from any root and with any salt.
#[test]
fn masters_for_every_m() {
    let mut random = Random::new(151);
    for m in 2..=512 {
        let (root, mut salt) = (random.bytes(16), SALT);
        random.fill(&mut salt);
        let masters = salted_masters(&mut random, m, &salt, &root);
        assert_eq!(masters.len(), m);
    }
}

/// With the same N, fewer masters are the first of more; with another N they are
/// others.
#[test]
fn masters_of_one_tree() {
    let mut random = Random::new(152);
    let root = random.bytes(16);
    for n in [4, 8, 16, 32, 64, 128, 256, 512] {
        let whole = masters_of(&mut random, n, &root);
        for m in [n / 2 + 1, n - 1] {
            assert_eq!(masters_of(&mut random, m, &root), whole[..m], "{m} of {n}");
        }
        let half = masters_of(&mut random, n / 2, &root);
        assert!(half.iter().all(|master| !whole.contains(master)), "{n}");
    }
}

/// The tree of the masters is that of instance 65,535 where there are as many parties:
/// its leaves, and its siblings for one hidden leaf.
#[test]
fn trees_of_parties() {
    let mut random = Random::new(153);
    for n in [2, 4, 8, 16, 32, 64] {
        for _ in 0..10 {
            let root = random.bytes(16);
            let masters = masters_of(&mut random, n, &root);
            let mut leaves = vec![0; 16 * n];
            assert_eq!(expand(65_535, n as u32, &SALT, &root, &mut leaves), Ok(()));
            assert_eq!(masters.concat(), leaves);
            for p in 0..n {
                let call = Cover::of(n, &[p], &SALT, &root);
                let cover = compare_cover(&mut random, &call).expect("no refusal");
                let mut siblings = vec![0; cover.len()];
                let opened = open(65_535, n as u32, p as u32, &SALT, &root, &mut siblings);
                assert_eq!(opened, Ok(()));
                assert_eq!(cover, siblings, "n {n}, p {p}");
            }
        }
    }
}

/// The leaves of a set.
fn leaves_of(set: usize, m: usize) -> Vec<usize> {
    (0..m).filter(|leaf| set >> leaf & 1 != 0).collect()
}

/// The set of the leaves below M that follow from node k.
fn follows(k: usize, m: usize, n: usize) -> usize {
    let (mut first, mut behind) = (k, k + 1);
    while first < n {
        (first, behind) = (2 * first, 2 * behind);
    }
    let leaves = (first - n)..(behind - n).min(m);
    leaves.fold(0, |set, leaf| set | 1 << leaf)
}

/// For each set of leaves, the fewest nodes from which exactly its leaves follow: all
/// sets of one node are tried, then of two, and so on; of those with the same leaves,
/// one.
fn fewest_for_each_set(m: usize) -> Vec<Option<usize>> {
    let n = m.next_power_of_two();
    let nodes: Vec<usize> = (1..2 * n).map(|k| follows(k, m, n)).collect();
    let mut fewest = vec![None; 1 << m];
    fewest[0] = Some(0);
    let mut reached = vec![0];
    for count in 1.. {
        let mut next = vec![];
        for set in reached {
            for node in &nodes {
                let union = set | node;
                if fewest[union].is_none() {
                    fewest[union] = Some(count);
                    next.push(union);
                }
            }
        }
        if next.is_empty() {
            return fewest;
        }
        reached = next;
    }
    unreachable!("there are only so many sets");
}

/// Every set of hidden leaves of every M from 2 to 9: the nodes are those of document
/// 02, each leaf is below exactly one of them or is hidden, and no fewer nodes have
/// exactly the unhidden leaves below them.
#[test]
fn every_set_of_small_trees() {
    let mut random = Random::new(154);
    for m in 2..=9 {
        let root = random.bytes(16);
        let masters = masters_of(&mut random, m, &root);
        let n = m.next_power_of_two();
        let fewest = fewest_for_each_set(m);
        let all = (1 << m) - 1;
        for set in 1..=all {
            let leaves = leaves_of(set, m);
            let count = check_cover(&mut random, &masters, &leaves, &root);
            let nodes = opened_nodes(&hidden_among(m, &leaves));
            assert!(nodes.is_sorted_by(|a, b| a < b), "M {m}, {nodes:?}");
            let below = nodes.iter().map(|&k| follows(k, m, n));
            let sum: usize = below.clone().sum();
            let union = below.fold(0, |union, set| union | set);
            assert_eq!([sum, union], [all - set; 2], "M {m}, {leaves:?}");
            assert_eq!(fewest[all - set], Some(count), "M {m}, {leaves:?}");
        }
    }
}

/// The most nodes for tau hidden leaves, over every set; and more than M - tau there
/// are never.
#[test]
fn the_most_opened_nodes() {
    for m in 2..=11_usize {
        let mut most = vec![0; m];
        for set in 1..(1_usize << m) - 1 {
            let leaves = leaves_of(set, m);
            let count = opened_nodes(&hidden_among(m, &leaves)).len();
            most[leaves.len()] = most[leaves.len()].max(count as u32);
        }
        for (tau, &most) in most.iter().enumerate().skip(1) {
            assert_eq!(most_opened(m as u32, tau as u32), Some(most), "{m} {tau}");
            assert!(most as usize <= m - tau, "{m} {tau}");
        }
    }
}

/// So many different leaves below m, in any order.
fn some_leaves(random: &mut Random, m: usize, count: usize) -> Vec<usize> {
    let order = random.order(m).into_iter().map(|k| k - 1);
    order.take(count).collect()
}

/// Sets of any size, sets of few leaves, runs of leaves, and every so many.
fn any_set(random: &mut Random, m: usize) -> Vec<usize> {
    let few = random.from_to(1, m.min(5));
    match random.below(4) {
        0 => some_leaves(random, m, few),
        1 => {
            let first = random.below(m);
            let last = random.from_to(first, m - 1);
            (first..=last).collect()
        }
        2 => {
            let (first, step) = (random.below(m), random.from_to(1, 9));
            (first..m).step_by(step).collect()
        }
        _ => {
            let count = random.from_to(1, m);
            some_leaves(random, m, count)
        }
    }
}

#[test]
fn any_sets() {
    let mut random = Random::new(155);
    for _ in 0..400 {
        let any = random.from_to(2, 512);
        let edge = random.pick(&EDGES);
        let m = random.pick(&[any, any, edge, 343]);
        let root = random.bytes(16);
        let masters = masters_of(&mut random, m, &root);
        let mut leaves = any_set(&mut random, m);
        if random.once_in(3) {
            let again = random.pick(&leaves);
            leaves.push(again);
        }
        let count = check_cover(&mut random, &masters, &leaves, &root);
        let tau = hidden_among(m, &leaves)
            .iter()
            .filter(|hidden| **hidden)
            .count();
        if tau < m {
            let most = most_opened(m as u32, tau as u32).expect("legal counts");
            assert!(count as u32 <= most, "M {m}, {count} of {most}, {leaves:?}");
        }
    }
}

/// One hidden, and all but one: the siblings on the way to the leaf but for those of
/// spare leaves alone, and one node, the leaf.
#[test]
fn one_hidden_and_all_but_one() {
    let mut random = Random::new(156);
    for m in EDGES {
        let root = random.bytes(16);
        let masters = masters_of(&mut random, m, &root);
        let ends = [0, 1, m / 2, m - 2, m - 1];
        for leaf in ends {
            let count = check_cover(&mut random, &masters, &[leaf], &root);
            let levels = m.next_power_of_two().ilog2() as usize;
            assert!((1..=levels).contains(&count), "M {m}, leaf {leaf}");
            if m.is_power_of_two() {
                assert_eq!(count, levels, "M {m}, leaf {leaf}");
            }
            let others: Vec<usize> = (0..m).filter(|&other| other != leaf).collect();
            let call = Cover::of(m, &others, &SALT, &root);
            let cover = compare_cover(&mut random, &call).expect("no refusal");
            // A leaf whose sibling is spare has its parent opened in its place.
            if leaf + 1 < m || m % 2 == 0 {
                assert_eq!(cover, masters[leaf], "M {m}, leaf {leaf}");
            }
            assert_eq!(check_cover(&mut random, &masters, &others, &root), 1);
        }
    }
}

/// Every bit of the root has its part in every master and in every node.
#[test]
fn roots_differ() {
    let mut random = Random::new(157);
    let root = random.bytes(16);
    let call = Cover::of(9, &[1, 8], &SALT, &root);
    let masters = masters_of(&mut random, 9, &root);
    let nodes = values(&compare_cover(&mut random, &call).expect("no refusal"));
    assert_eq!(nodes.len(), 3);
    for bit in 0..128 {
        let mut call = call.clone();
        call.root[bit / 8] ^= 1 << (bit % 8);
        let others = masters_of(&mut random, 9, &call.root);
        assert!(masters.iter().zip(others).all(|(a, b)| *a != b), "{bit}");
        let others = values(&compare_cover(&mut random, &call).expect("no refusal"));
        assert!(nodes.iter().zip(others).all(|(a, b)| *a != b), "{bit}");
    }
}

/// Every bit of the salt too.
#[test]
fn salts_differ() {
    let mut random = Random::new(158);
    let root = random.bytes(16);
    let call = Cover::of(9, &[1, 8], &SALT, &root);
    let masters = masters_of(&mut random, 9, &root);
    let nodes = values(&compare_cover(&mut random, &call).expect("no refusal"));
    for bit in 0..256 {
        let mut salt = SALT;
        salt[bit / 8] ^= 1 << (bit % 8);
        let others = salted_masters(&mut random, 9, &salt, &root);
        assert!(masters.iter().zip(others).all(|(a, b)| *a != b), "{bit}");
        let call = Cover::of(9, &[1, 8], &salt, &root);
        let others = values(&compare_cover(&mut random, &call).expect("no refusal"));
        assert!(nodes.iter().zip(others).all(|(a, b)| *a != b), "{bit}");
    }
}

/// A salt of zeros is a salt: masters follow from their cover, and the masters without
/// a salt, SHAKE128 of 2, 65,535, k and the value, are others.
#[test]
fn a_salt_of_zeros() {
    let mut random = Random::new(159);
    let root = random.bytes(16);
    let masters = salted_masters(&mut random, 2, &[0; 32], &root);
    let call = Cover::of(2, &[0], &[0; 32], &root);
    let node = compare_cover(&mut random, &call).expect("no refusal");
    assert_eq!(node, masters[1]);
    for (salt, alike) in [(&[0; 32][..], true), (&[], false)] {
        let input = [&[2], salt, &[255, 255, 1, 0], &root].concat();
        let mut children = [0; 32];
        wivulameno::shake128(&input, &mut children);
        assert_eq!(masters.concat() == children, alike);
    }
}
