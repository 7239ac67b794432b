//! What a call does with lent memory: it writes its output and no other byte.

use reference::fips202;
use tests::guarded::Guarded;
use tests::random::Random;
use wivulameno::sha3_256_into;

type Xof = fn(&[u8], &mut [u8]);

const LENGTHS: [usize; 14] = [0, 1, 7, 8, 31, 32, 33, 135, 136, 137, 167, 168, 169, 1000];

/// Every pair of lengths, and every alignment of both buffers in a word.
fn check_xof(ours: Xof, second: Xof, seed: u64) {
    let mut random = Random::new(seed);
    for len in LENGTHS {
        for out_len in LENGTHS {
            for shift in 0..8 {
                check_xof_at(ours, second, &mut random, [len, out_len], shift);
            }
        }
    }
}

fn check_xof_at(ours: Xof, second: Xof, random: &mut Random, lens: [usize; 2], shift: usize) {
    let message = Guarded::new(random, shift, lens[0]);
    let mut out = Guarded::new(random, (3 * shift + 1) % 8, lens[1]);
    ours(message.get(), out.lent());

    let mut expected = vec![0; lens[1]];
    second(message.get(), &mut expected);
    assert!(out.get() == expected, "output, lengths {lens:?}");
    assert!(out.outside_unchanged(), "outside, lengths {lens:?}");
    assert!(message.unchanged(), "message, lengths {lens:?}");
}

#[test]
fn shake128_writes_its_output_alone() {
    check_xof(wivulameno::shake128, fips202::shake128, 11);
}

#[test]
fn shake256_writes_its_output_alone() {
    check_xof(wivulameno::shake256, fips202::shake256, 12);
}

#[test]
fn sha3_256_writes_its_digest_alone() {
    let mut random = Random::new(13);
    for len in LENGTHS {
        for shift in 0..8 {
            let message = Guarded::new(&mut random, shift, len);
            let mut digest = Guarded::new(&mut random, (3 * shift + 1) % 8, 32);
            let lent = digest.lent().try_into().expect("32 bytes");
            sha3_256_into(message.get(), lent);
            assert_eq!(digest.get(), fips202::sha3_256(message.get()));
            assert!(digest.outside_unchanged(), "outside, length {len}");
            assert!(message.unchanged(), "message, length {len}");
        }
    }
}
