//! The library and the reference give the same answers on random messages.

use reference::fips202;
use tests::random::Random;

type Xof = fn(&[u8], &mut [u8]);

const RATES: [usize; 2] = [136, 168];
const LONG: [usize; 3] = [65_535, 65_536, 100_003];

/// Fills two buffers of unlike contents, one by each, and compares them.
fn compare(ours: Xof, second: Xof, message: &[u8], out_len: usize) {
    let (mut a, mut b) = (vec![0x55; out_len], vec![0xaa; out_len]);
    ours(message, &mut a);
    second(message, &mut b);
    let len = message.len();
    assert!(a == b, "message of {len} bytes, output of {out_len}");
}

/// Lengths up to two bytes from each multiple of both rates, to ten blocks.
fn near_rates() -> Vec<usize> {
    let multiples = RATES
        .iter()
        .flat_map(|rate| (1..=10).map(move |k| k * rate));
    multiples.flat_map(|m| m - 2..=m + 2).collect()
}

/// Every message length 0..=1000; 499 has no factor in common with 1001, so
/// that every output length 0..=1000 occurs too.
fn compare_every_length(ours: Xof, second: Xof, seed: u64) {
    let mut random = Random::new(seed);
    let mut seen = [false; 1001];
    for len in 0..=1000 {
        let out_len = (499 * len + 313) % 1001;
        compare(ours, second, &random.bytes(len), out_len);
        seen[out_len] = true;
    }
    assert!(seen.iter().all(|&seen| seen));
}

fn compare_near_rates(ours: Xof, second: Xof, seed: u64) {
    let mut random = Random::new(seed);
    for len in near_rates() {
        let message = random.bytes(len);
        for out_len in near_rates() {
            compare(ours, second, &message, out_len);
        }
    }
}

fn compare_long(ours: Xof, second: Xof, seed: u64) {
    let mut random = Random::new(seed);
    for len in LONG {
        compare(ours, second, &random.bytes(len), 200);
        compare(ours, second, &random.bytes(16), len);
    }
    compare(ours, second, &random.bytes(100_003), 65_537);
}

fn compare_sha3_256(lengths: impl IntoIterator<Item = usize>, seed: u64) {
    let mut random = Random::new(seed);
    for len in lengths {
        let message = random.bytes(len);
        let (a, b) = (wivulameno::sha3_256(&message), fips202::sha3_256(&message));
        assert_eq!(a, b, "message of {len} bytes");
    }
}

#[test]
fn sha3_256_every_length() {
    compare_sha3_256(0..=1000, 1);
}

#[test]
fn sha3_256_near_rates() {
    compare_sha3_256(near_rates(), 2);
}

#[test]
fn sha3_256_long() {
    compare_sha3_256(LONG, 3);
}

#[test]
fn shake128_every_length() {
    compare_every_length(wivulameno::shake128, fips202::shake128, 4);
}

#[test]
fn shake128_near_rates() {
    compare_near_rates(wivulameno::shake128, fips202::shake128, 5);
}

#[test]
fn shake128_long() {
    compare_long(wivulameno::shake128, fips202::shake128, 6);
}

#[test]
fn shake256_every_length() {
    compare_every_length(wivulameno::shake256, fips202::shake256, 7);
}

#[test]
fn shake256_near_rates() {
    compare_near_rates(wivulameno::shake256, fips202::shake256, 8);
}

#[test]
fn shake256_long() {
    compare_long(wivulameno::shake256, fips202::shake256, 9);
}
