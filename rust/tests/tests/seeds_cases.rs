//! Each refusal of the seed tree and the challenge, alone and in order. Both
//! implementations must give the number that stands here.

use reference::seeds;
use tests::challenges::{compare_challenge, Challenge};
use tests::guarded::Guarded;
use tests::random::Random;

const NOT_A_COUNT: [u32; 20] = [
    0,
    1,
    3,
    5,
    6,
    7,
    9,
    12,
    15,
    17,
    48,
    63,
    65,
    128,
    256 + 2,
    256 + 64,
    65_536 + 4,
    1 << 31,
    u32::MAX - 1,
    u32::MAX,
];
const NOT_AN_INSTANCE: [u32; 4] = [65_536, 65_537, 1 << 31, u32::MAX];

/// A refused call of the library leaves what it is lent.
fn refused(
    out_len: usize,
    number: u32,
    call: impl Fn(&mut [u8]) -> Result<(), wivulameno::Refusal>,
) {
    let mut out = Guarded::new(&mut Random::new(1), 1, out_len);
    let answer = call(out.lent());
    assert_eq!(answer, Err(wivulameno::Refusal::of(number)));
    assert!(out.unchanged());
}

/// The lengths are those of the salt, the master and the output.
fn check_expand(j: u32, n: u32, lens: [usize; 3], number: u32) {
    let (salt, master) = (vec![9; lens[0]], vec![7; lens[1]]);
    let second = seeds::expand(j, n, &salt, &master, &mut vec![0; lens[2]]);
    assert_eq!(second, Err(number), "j {j}, n {n}, lengths {lens:?}");
    refused(lens[2], number, |out| {
        wivulameno::seeds::expand(j, n, &salt, &master, out)
    });
}

fn check_open(j: u32, n: u32, p: u32, lens: [usize; 3], number: u32) {
    let (salt, master) = (vec![9; lens[0]], vec![7; lens[1]]);
    let second = seeds::open(j, n, p, &salt, &master, &mut vec![0; lens[2]]);
    assert_eq!(second, Err(number), "j {j}, n {n}, p {p}, lengths {lens:?}");
    refused(lens[2], number, |out| {
        wivulameno::seeds::open(j, n, p, &salt, &master, out)
    });
}

/// The lengths are those of h*, the salt, the circuit's digest, y, the message and the
/// output.
fn check_challenge(counts: [u32; 3], lens: [usize; 6], number: u32) {
    let mut random = Random::new(1);
    let call = Challenge::of_lengths(&mut random, counts, lens);
    let answer = compare_challenge(&mut random, &call);
    assert_eq!(answer, Err(number), "{}", call.shown());
}

/// Lengths that are good for tau = 1, and lengths of which none is.
const GOOD: [usize; 6] = [32, 32, 32, 2, 5, 3];
const BAD: [usize; 6] = [31, 33, 33, 0, 4097, 2];

/// What is no length of a salt.
const NO_SALT: [usize; 8] = [0, 1, 16, 31, 33, 48, 64, 256 + 32];

#[test]
fn refusals_of_expand() {
    for n in NOT_A_COUNT {
        check_expand(0, n, [32, 16, 32], 8);
        check_expand(0, n, [31, 15, 31], 8);
    }
    for j in NOT_AN_INSTANCE {
        check_expand(j, 2, [32, 16, 32], 8);
        check_expand(j, 2, [0, 0, 0], 8);
    }
    for len in [0, 1, 15, 17, 32, 256 + 16] {
        check_expand(0, 2, [32, len, 32], 6);
        check_expand(65_535, 16, [32, len, 256], 6);
        check_expand(0, 64, [32, len, 1024], 6);
    }
    for len in [0, 1, 63, 65, 32, 128, 256] {
        check_expand(0, 4, [32, 16, len], 6);
    }
    for len in [0, 256, 512, 1023, 1025, 2048] {
        check_expand(0, 64, [32, 16, len], 6);
    }
    for len in NO_SALT {
        check_expand(0, 2, [len, 16, 32], 6);
        check_expand(65_535, 16, [len, 16, 256], 6);
        check_expand(0, 3, [len, 16, 48], 8);
        check_expand(65_536, 2, [len, 16, 32], 8);
    }
    // A salt and a master whose lengths are exchanged, or right only in sum.
    check_expand(0, 2, [16, 32, 32], 6);
    check_expand(0, 2, [31, 17, 32], 6);
    check_expand(0, 2, [33, 15, 32], 6);
}

#[test]
fn refusals_of_open() {
    for n in NOT_A_COUNT {
        check_open(0, n, 0, [32, 16, 16], 8);
        check_open(0, n, n, [0, 0, 0], 8);
    }
    for j in NOT_AN_INSTANCE {
        check_open(j, 2, 0, [32, 16, 16], 8);
        check_open(j, 2, 2, [0, 0, 0], 8);
    }
    for (n, len) in [(2, 16), (4, 32), (8, 48), (16, 64), (32, 80), (64, 96)] {
        for p in [n, n + 1, 256, 65_536, 1 << 31, u32::MAX] {
            check_open(0, n, p, [32, 16, len], 9);
            check_open(0, n, p, [0, 0, 0], 9);
        }
        for other in [0, 1, len - 1, len + 1, len - 16, len + 16] {
            check_open(0, n, n - 1, [32, 16, other], 6);
        }
        for other in [0, 1, 15, 17, 32] {
            check_open(0, n, n - 1, [32, other, len], 6);
        }
        for other in NO_SALT {
            check_open(0, n, n - 1, [other, 16, len], 6);
            check_open(0, n, n, [other, 16, len], 9);
            check_open(0, n + 1, 0, [other, 16, len], 8);
        }
    }
}

#[test]
fn refusals_of_challenge_for_counts() {
    let check = |counts| {
        check_challenge(counts, GOOD, 8);
        check_challenge(counts, BAD, 8);
        for (place, len) in BAD.into_iter().enumerate() {
            let mut lens = GOOD;
            lens[place] = len;
            check_challenge(counts, lens, 8);
        }
    };
    for m in [0, 1, 513, 514, 1024, 65_536 + 4, 1 << 31, u32::MAX] {
        check([m, 1, 2]);
    }
    for tau in [0, 4, 5, 256 + 1, 65_536 + 1, 1 << 31, u32::MAX] {
        check([4, tau, 2]);
    }
    for m in [2, 3, 17, 512] {
        check([m, m, 2]);
        check_challenge([m, m, 2], [32, 32, 32, 2, 5, 3 * m as usize], 8);
    }
    for n in NOT_A_COUNT {
        check([4, 1, n]);
    }
}

#[test]
fn refusals_of_challenge_for_lengths() {
    for len in [0, 1, 31, 33, 64, 256 + 32] {
        check_challenge([4, 1, 2], [len, 32, 32, 2, 5, 3], 6);
        check_challenge([4, 1, 2], [32, 32, len, 2, 5, 3], 6);
    }
    for len in NO_SALT {
        check_challenge([4, 1, 2], [32, len, 32, 2, 5, 3], 6);
        check_challenge([4, 4, 2], [32, len, 32, 2, 5, 3], 8);
    }
    check_challenge([4, 1, 2], [33, 31, 32, 2, 5, 3], 6);
    // A y of 256 + 1 bytes, or of 65,536 + 1, is not one of 1 byte.
    for len in [0, 33, 34, 64, 256, 256 + 1, 65_536 + 1] {
        check_challenge([4, 1, 2], [32, 32, 32, len, 5, 3], 6);
    }
    for len in [4097, 4098, 65_536, 65_536 + 5] {
        check_challenge([4, 1, 2], [32, 32, 32, 2, len, 3], 6);
    }
    for len in [0, 1, 2, 3, 5, 7, 8, 9, 12, 256 + 6] {
        check_challenge([4, 2, 2], [32, 32, 32, 2, 5, len], 6);
    }
    check_challenge([4, 1, 2], BAD, 6);
}

/// Lengths at both ends, and a y whose unused bits are set: nothing is refused.
#[test]
fn lengths_that_a_challenge_accepts() {
    let mut random = Random::new(2);
    for (y, message) in [(1, 0), (32, 4096), (1, 4096), (32, 0)] {
        let mut call = Challenge::any(&mut random, [4, 2, 2], y, message);
        call.y.fill(0xff);
        let answer = compare_challenge(&mut random, &call);
        assert_eq!(answer.map(|out| out.len()), Ok(6), "{}", call.shown());
    }
}
