//! Hand-made calls of masters and cover: lists in any order, the ends of the limits,
//! and each refusal alone and before every later one. Both implementations must give
//! the answer that stands here.

use tests::covers::{bytes_of, compare_cover, compare_masters, Cover, Masters};
use tests::random::Random;

/// What is no number of instances.
const NOT_AN_M: [u32; 10] = [
    0,
    1,
    513,
    514,
    1024,
    65_536,
    65_536 + 5,
    1 << 31,
    u32::MAX - 1,
    u32::MAX,
];
const SALT: [u8; 32] = [9; 32];
const ROOT: [u8; 16] = [7; 16];

fn masters(call: &Masters, expected: Result<(), u32>) {
    let answer = compare_masters(&mut Random::new(1), call);
    assert_eq!(answer.map(|_| ()), expected, "{}", call.shown());
}

fn covered(call: &Cover, expected: Result<(), u32>) {
    let answer = compare_cover(&mut Random::new(1), call);
    assert_eq!(answer.map(|_| ()), expected, "{}", call.shown());
}

/// The masters of so many instances; the lengths are those of the root and the output.
fn some_masters(m: u32, root: usize, out_len: usize) -> Masters {
    let (salt, root) = (SALT.to_vec(), vec![7; root]);
    Masters {
        m,
        salt,
        root,
        out_len,
    }
}

/// The same with a salt of this length.
fn salted(len: usize, call: Masters) -> Masters {
    let salt = vec![9; len];
    Masters { salt, ..call }
}

/// What is no length of a salt.
const NO_SALT: [usize; 8] = [0, 1, 16, 31, 33, 48, 64, 256 + 32];

#[test]
fn refusals_of_masters() {
    masters(&some_masters(2, 16, 32), Ok(()));
    for m in NOT_AN_M {
        let len = 16 * m.min(1024) as usize;
        for (root, out_len) in [(16, len), (16, 0), (15, len), (0, 0)] {
            masters(&some_masters(m, root, out_len), Err(8));
        }
    }
    for root in [0, 1, 15, 17, 32, 256 + 16] {
        masters(&some_masters(2, root, 32), Err(6));
        masters(&some_masters(2, root, 31), Err(6));
    }
    for out_len in [0, 1, 16, 31, 33, 48, 64, 256 + 32] {
        masters(&some_masters(2, 16, out_len), Err(6));
    }
    for len in NO_SALT {
        masters(&salted(len, some_masters(2, 16, 32)), Err(6));
        masters(&salted(len, some_masters(512, 16, 8192)), Err(6));
        masters(&salted(len, some_masters(1, 16, 16)), Err(8));
    }
    // Exchanged with the root, and right only in sum.
    masters(&salted(16, some_masters(2, 32, 32)), Err(6));
    masters(&salted(31, some_masters(2, 17, 32)), Err(6));
    for m in [3_u32, 5, 9, 257, 511, 512] {
        let len = 16 * m as usize;
        // All leaves of the tree, the spare ones too, are too many.
        let whole = 16 * m.next_power_of_two() as usize;
        for out_len in [len - 1, len + 1, len - 16, len + 16, whole + 16] {
            masters(&some_masters(m, 16, out_len), Err(6));
        }
        assert_eq!(whole != len, m != 512);
        if whole != len {
            masters(&some_masters(m, 16, whole), Err(6));
        }
        masters(&some_masters(m, 16, len), Ok(()));
    }
}

/// Five leaves of eight, of which 2 is hidden: nodes 3, 4 and 11.
fn of_five() -> Cover {
    let call = Cover::of(5, &[2], &SALT, &ROOT);
    assert_eq!(call.out_len, 48);
    call
}

/// `of_five` with another list.
fn hiding(hidden: &[u8]) -> Cover {
    Cover {
        hidden: hidden.to_vec(),
        ..of_five()
    }
}

#[test]
fn refusals_of_cover_for_m() {
    covered(&of_five(), Ok(()));
    for m in NOT_AN_M {
        covered(&Cover { m, ..of_five() }, Err(8));
        covered(&Cover { m, ..hiding(&[]) }, Err(8));
        covered(
            &Cover {
                m,
                ..hiding(&[9, 9, 9])
            },
            Err(8),
        );
    }
}

/// No leaf at all, or one that is not below M: spare ones too, and at every place.
#[test]
fn refusals_of_cover_for_leaves() {
    for hidden in [&[][..], &[0], &[2], &[255]] {
        covered(&hiding(hidden), Err(9));
    }
    for leaf in [
        5,
        6,
        7,
        8,
        13,
        255,
        256,
        256 + 2,
        511,
        512,
        32_768 + 2,
        65_535,
    ] {
        for place in 0..4 {
            let mut leaves = vec![2, 2, 2];
            leaves.insert(place, leaf);
            covered(&hiding(&bytes_of(&leaves)), Err(9));
        }
        covered(&hiding(&bytes_of(&[leaf])), Err(9));
        // The odd byte comes later, with the lengths.
        let odd = [&bytes_of(&[leaf])[..], &[0]].concat();
        covered(&hiding(&odd), Err(9));
    }
    for m in [2, 3, 4, 5, 8, 9, 255, 256, 257, 511, 512] {
        let mut call = Cover::of(m, &[m - 1], &SALT, &ROOT);
        covered(&call, Ok(()));
        call.hidden = bytes_of(&[m]);
        covered(&call, Err(9));
        call.hidden = bytes_of(&[m - 1, m]);
        covered(&call, Err(9));
    }
}

#[test]
fn refusals_of_cover_for_lengths() {
    for len in [0, 1, 15, 17, 32, 256 + 16] {
        let root = vec![7; len];
        covered(&Cover { root, ..of_five() }, Err(6));
    }
    for len in NO_SALT {
        let salt = vec![9; len];
        covered(&Cover { salt, ..of_five() }, Err(6));
    }
    // Of one node less or more, of all leaves, of all unhidden ones, and between.
    for out_len in [0, 1, 16, 32, 47, 49, 64, 80, 128, 256 + 48] {
        covered(
            &Cover {
                out_len,
                ..of_five()
            },
            Err(6),
        );
    }
    for odd in [0, 1, 2, 5, 255] {
        covered(&hiding(&[2, 0, odd]), Err(6));
        covered(&hiding(&[2, 0, 2, 0, odd]), Err(6));
    }
}

/// A change of a call, and the refusal that it leads to.
type Fault = (u32, fn(&mut Cover));

/// In the order of their refusals.
const FAULTS: [&[Fault]; 3] = [
    &[
        (8, |call| call.m = 1),
        (8, |call| call.m = 513),
        (8, |call| call.m = 65_536 + 5),
    ],
    &[
        (9, |call| call.hidden.truncate(0)),
        (9, |call| call.hidden.truncate(1)),
        (9, |call| call.hidden[0] = 5),
        (9, |call| call.hidden[1] = 1),
    ],
    &[
        (6, |call| call.salt.clear()),
        (6, |call| call.salt.truncate(31)),
        (6, |call| call.salt.push(9)),
        (6, |call| call.root.truncate(15)),
        (6, |call| call.root.push(7)),
        (6, |call| call.out_len -= 1),
        (6, |call| call.out_len += 1),
        (6, |call| call.out_len = 0),
        (6, |call| call.hidden.push(0)),
    ],
];

/// Each fault alone, and each two whose refusals are apart: the earlier answers.
#[test]
fn refusals_of_cover_in_order() {
    for (place, group) in FAULTS.iter().enumerate() {
        for (refusal, change) in *group {
            let mut call = of_five();
            change(&mut call);
            covered(&call, Err(*refusal));
            for (_, later) in FAULTS[place + 1..].iter().copied().flatten() {
                let mut call = of_five();
                later(&mut call);
                change(&mut call);
                covered(&call, Err(*refusal));
            }
        }
    }
}

/// One short and one long, for many sets.
#[test]
fn buffers_beside_the_right_length() {
    let mut random = Random::new(2);
    for m in [2, 3, 4, 5, 7, 8, 9, 16, 17, 100, 512] {
        for _ in 0..10 {
            let count = random.from_to(1, m);
            let leaves: Vec<usize> = (0..count).map(|_| random.below(m)).collect();
            let call = Cover::of(m, &leaves, &random.bytes(32), &random.bytes(16));
            let len = call.out_len;
            covered(&call, Ok(()));
            let lens = [len + 1, len + 16, len.wrapping_sub(1), len.wrapping_sub(16)];
            for out_len in lens.into_iter().filter(|len| *len < 100_000) {
                let call = Cover {
                    out_len,
                    ..call.clone()
                };
                covered(&call, Err(6));
            }
        }
    }
}

/// The order of the list and repeats in it are nothing: a set is hidden.
#[test]
fn lists_of_one_set() {
    let mut random = Random::new(3);
    let cover = |leaves: &[usize]| {
        let call = Cover::of(9, leaves, &SALT, &ROOT);
        compare_cover(&mut Random::new(1), &call).expect("no refusal")
    };
    let sorted = cover(&[1, 4, 8]);
    assert_eq!(sorted.len(), 16 * 4);
    for list in [[1, 8, 4], [4, 1, 8], [4, 8, 1], [8, 1, 4], [8, 4, 1]] {
        assert_eq!(cover(&list), sorted, "{list:?}");
    }
    for _ in 0..50 {
        let mut list = vec![1, 4, 8];
        for _ in 0..random.below(40) {
            list.insert(random.below(list.len() + 1), random.pick(&[1, 4, 8]));
        }
        assert_eq!(cover(&list), sorted, "{list:?}");
    }
    // More leaves than there can be different ones.
    assert_eq!(cover(&[1, 4, 8].repeat(500)), sorted);
    assert_ne!(cover(&[1, 4]), sorted);
}

/// All hidden: no node is opened, and there is nothing to write.
#[test]
fn all_are_hidden() {
    let mut random = Random::new(4);
    for m in [2, 3, 4, 5, 8, 9, 255, 256, 257, 512] {
        let leaves: Vec<usize> = random.order(m).into_iter().map(|k| k - 1).collect();
        let mut call = Cover::of(m, &leaves, &SALT, &ROOT);
        assert_eq!(call.out_len, 0);
        covered(&call, Ok(()));
        call.out_len = 16;
        covered(&call, Err(6));
        call.out_len = 0;
        call.root.pop();
        covered(&call, Err(6));
        call.root = ROOT.to_vec();
        call.salt.pop();
        covered(&call, Err(6));
    }
}
