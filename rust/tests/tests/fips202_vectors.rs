//! Both implementations give the published answers of FIPS 202.

use tests::vectors::{fips202, Algorithm, Vector};

type Hash = fn(&[u8]) -> [u8; 32];
type Xof = fn(&[u8], &mut [u8]);

fn check(vectors: &[Vector], output: impl Fn(&Vector) -> Vec<u8>) {
    for vector in vectors {
        let len = vector.message.len();
        assert_eq!(output(vector), vector.output, "message of {len} bytes");
    }
}

/// The vectors of one algorithm, of which there must be `count`.
fn vectors_of(algorithm: Algorithm, count: usize) -> Vec<Vector> {
    let mut vectors = fips202();
    vectors.retain(|vector| vector.algorithm == algorithm);
    assert_eq!(vectors.len(), count, "vectors of {algorithm:?}");
    vectors
}

fn check_hash(hash: Hash) {
    let vectors = vectors_of(Algorithm::Sha3_256, 6);
    check(&vectors, |vector| hash(&vector.message).to_vec());
}

/// The full outputs, and every shorter one as a prefix of them.
fn check_xof(algorithm: Algorithm, xof: Xof) {
    let vectors = vectors_of(algorithm, 5);
    check(&vectors, |vector| {
        let mut out = vec![0; vector.output.len()];
        xof(&vector.message, &mut out);
        out
    });
    for vector in &vectors {
        for len in 0..vector.output.len() {
            let mut out = vec![0; len];
            xof(&vector.message, &mut out);
            assert_eq!(out, vector.output[..len], "prefix of {len} bytes");
        }
    }
}

#[test]
fn sha3_256_of_the_library() {
    check_hash(wivulameno::sha3_256);
}

#[test]
fn sha3_256_of_the_reference() {
    check_hash(reference::fips202::sha3_256);
}

#[test]
fn shake128_of_the_library() {
    check_xof(Algorithm::Shake128, wivulameno::shake128);
}

#[test]
fn shake128_of_the_reference() {
    check_xof(Algorithm::Shake128, reference::fips202::shake128);
}

#[test]
fn shake256_of_the_library() {
    check_xof(Algorithm::Shake256, wivulameno::shake256);
}

#[test]
fn shake256_of_the_reference() {
    check_xof(Algorithm::Shake256, reference::fips202::shake256);
}
