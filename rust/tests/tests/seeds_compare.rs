//! The library and the reference give the same leaves, openings and challenges.

use reference::seeds::{self, Context, Value};
use tests::calls::COUNTS;
use tests::challenges::{compare_challenge, Challenge};
use tests::guarded::Guarded;
use tests::random::Random;

const TREES: usize = 40;
const MESSAGES: [usize; 6] = [0, 1, 135, 136, 137, 4096];

/// Instance numbers at the ends and between them.
fn any_instance(random: &mut Random) -> u32 {
    match random.below(4) {
        0 => random.pick(&[0, 1, 255, 256, 511, 65_534, 65_535]),
        _ => random.below(65_536) as u32,
    }
}

/// A salt and a master.
type Given<'a> = [&'a [u8]; 2];

/// The library's leaves, after they were compared.
fn compare_expand(random: &mut Random, j: u32, n: u32, given: Given) -> Vec<u8> {
    let given = Guarded::holding_each(random, given);
    let [salt, master] = given.each_ref().map(Guarded::get);
    let mut leaves = Guarded::new(random, 3, 16 * n as usize);
    let ours = wivulameno::seeds::expand(j, n, salt, master, leaves.lent());
    assert_eq!(ours, Ok(()), "j {j}, n {n}");

    let mut expected = vec![0; 16 * n as usize];
    seeds::expand(j, n, salt, master, &mut expected).expect("no refusal");
    assert!(leaves.get() == expected, "leaves, j {j}, n {n}");
    assert!(leaves.outside_unchanged() && given.iter().all(Guarded::unchanged));
    leaves.get().to_vec()
}

/// The library's siblings, after they were compared.
fn compare_open(random: &mut Random, j: u32, n: u32, p: u32, given: Given) -> Vec<u8> {
    let given = Guarded::holding_each(random, given);
    let [salt, master] = given.each_ref().map(Guarded::get);
    let len = 16 * n.ilog2() as usize;
    let mut siblings = Guarded::new(random, 6, len);
    let ours = wivulameno::seeds::open(j, n, p, salt, master, siblings.lent());
    assert_eq!(ours, Ok(()), "j {j}, n {n}, p {p}");

    let mut expected = vec![0; len];
    seeds::open(j, n, p, salt, master, &mut expected).expect("no refusal");
    assert!(siblings.get() == expected, "siblings, j {j}, n {n}, p {p}");
    assert!(siblings.outside_unchanged() && given.iter().all(Guarded::unchanged));
    siblings.get().to_vec()
}

fn values(bytes: &[u8]) -> Vec<Value> {
    bytes
        .chunks(16)
        .map(|value| value.try_into().unwrap())
        .collect()
}

/// Every n with every p; the opening gives every leaf but that of p.
#[test]
fn trees_and_openings() {
    let mut random = Random::new(51);
    for n in COUNTS {
        for _ in 0..TREES {
            let j = any_instance(&mut random);
            let (salt, master) = (random.bytes(32), random.bytes(16));
            let given: Given = [&salt, &master];
            let context = Context {
                salt: salt[..].try_into().expect("32 bytes"),
                j: j as u16,
            };
            let leaves = values(&compare_expand(&mut random, j, n, given));
            for p in 0..n {
                let siblings = values(&compare_open(&mut random, j, n, p, given));
                let opened = seeds::opened_leaves(context, n as usize, p as usize, &siblings);
                for (i, leaf) in opened.into_iter().enumerate() {
                    let expected = (i != p as usize).then_some(leaves[i]);
                    assert_eq!(leaf, expected, "n {n}, p {p}, leaf {i}");
                }
            }
        }
    }
}

/// Every bit of j has its part in the leaves.
#[test]
fn instances_differ() {
    let mut random = Random::new(52);
    let given: Given = [&[8; 32], &[9; 16]];
    let first = compare_expand(&mut random, 0, 2, given);
    for bit in 0..16 {
        let other = compare_expand(&mut random, 1 << bit, 2, given);
        assert_ne!(first, other, "bit {bit}");
    }
}

/// Every bit of the salt has its part in every leaf and in every sibling.
#[test]
fn salts_differ() {
    let mut random = Random::new(57);
    let (j, n, p) = (3, 16, 5);
    let ask = |random: &mut Random, salt: &[u8]| {
        let given: Given = [salt, &[9; 16]];
        let leaves = compare_expand(random, j, n, given);
        values(&[leaves, compare_open(random, j, n, p, given)].concat())
    };
    let zeros = [0; 32];
    let first = ask(&mut random, &zeros);
    for bit in 0..256 {
        let mut salt = zeros;
        salt[bit / 8] |= 1 << (bit % 8);
        let other = ask(&mut random, &salt);
        let mut pairs = first.iter().zip(&other);
        assert!(pairs.all(|(one, other)| one != other), "bit {bit}");
    }
}

/// The node rule byte by byte: the two children of node 1 are SHAKE128 of 2, the salt, j,
/// 1 and the master.
#[test]
fn children_by_the_rule() {
    let mut random = Random::new(58);
    for j in [0, 1, 0x0102, 65_535] {
        let (salt, master) = (random.bytes(32), random.bytes(16));
        let [low, high] = (j as u16).to_le_bytes();
        let input = [&[2], &salt[..], &[low, high, 1, 0], &master].concat();
        let mut children = vec![0; 32];
        wivulameno::shake128(&input, &mut children);
        let given: Given = [&salt, &master];
        assert_eq!(compare_expand(&mut random, j, 2, given), children, "{j}");
        for (p, sibling) in [(0, &children[16..]), (1, &children[..16])] {
            assert_eq!(compare_open(&mut random, j, 2, p, given), sibling, "{j}");
        }
    }
}

/// A good call by both, whose answer is in form.
fn compare(random: &mut Random, counts: [u32; 3], y: usize, message: usize) {
    let call = Challenge::any(random, counts, y, message);
    let out = compare_challenge(random, &call).expect("no refusal");
    let chosen = out.chunks(3).map(|bytes| {
        let [low, high, party] = bytes.try_into().expect("three bytes");
        (u16::from_le_bytes([low, high]), party)
    });
    check_form(counts, &chosen.collect::<Vec<_>>());
}

/// A challenge is tau instances below m, ascending, with parties below n.
fn check_form(counts: [u32; 3], chosen: &[(u16, u8)]) {
    let [m, tau, n] = counts;
    assert_eq!(chosen.len(), tau as usize);
    assert!(chosen.is_sorted_by(|a, b| a.0 < b.0), "{counts:?}");
    let within = |&(instance, party): &(u16, u8)| u32::from(instance) < m && u32::from(party) < n;
    assert!(chosen.iter().all(within), "{counts:?}");
}

/// Every M with tau = 1, tau = M - 1 and a tau between.
#[test]
fn challenges_for_every_m() {
    let mut random = Random::new(53);
    for m in 2..=512 {
        let between = random.from_to(1, m - 1);
        for tau in [1, m - 1, between] {
            let n = random.pick(&COUNTS);
            let (y, message) = (random.from_to(1, 32), random.below(300));
            compare(&mut random, [m as u32, tau as u32, n], y, message);
        }
    }
}

#[test]
fn challenges_for_every_tau() {
    let mut random = Random::new(54);
    for m in 2..=12 {
        for tau in 1..m {
            for n in COUNTS {
                compare(&mut random, [m, tau, n], 3, 10);
            }
        }
    }
}

/// Both ends, and every length about the ends of the blocks of 136 bytes, of which
/// 104 and those of y come before the message.
#[test]
fn challenges_for_message_lengths() {
    let mut random = Random::new(55);
    for y in [1, 2, 17, 32] {
        let near_rate = [136, 272].map(|rate: usize| {
            let before = rate - 104;
            before.saturating_sub(y + 3)..=(before + 3).saturating_sub(y)
        });
        for message in MESSAGES.into_iter().chain(near_rate.into_iter().flatten()) {
            for n in COUNTS {
                compare(&mut random, [40, 11, n], y, message);
            }
        }
    }
}

#[test]
fn challenges_for_y_lengths() {
    let mut random = Random::new(56);
    for y in 1..=32 {
        for n in COUNTS {
            for message in [0, 1, 300] {
                compare(&mut random, [40, 11, n], y, message);
            }
        }
    }
}
