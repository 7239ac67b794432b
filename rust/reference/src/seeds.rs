//! Seed trees, tapes, commitments, digests and the challenge.
//!
//! Each hash input starts with a tag byte; j is a u16 and i is a u8. Tags 1 to 4 take
//! the salt straight after the tag.

use crate::bits::{clear_rest, oct};
use crate::fips202::{sha3_256, shake128, shake256};
use crate::Refusal;

/// A root, a master, a node of a tree, a seed or an r.
pub type Value = [u8; 16];
pub type Digest = [u8; 32];
pub type Salt = [u8; 32];

/// What the hashes of an instance with tags 1 to 4 share: the salt of the proof and the
/// instance's number j.
#[derive(Clone, Copy, Debug)]
pub struct Context {
    pub salt: Salt,
    pub j: u16,
}

impl Context {
    /// A hash input: the tag, the salt, j, and then what the tag takes.
    fn input(&self, tag: u8, rest: &[&[u8]]) -> Vec<u8> {
        let head = [&[tag], &self.salt[..], &self.j.to_le_bytes()].concat();
        [head, rest.concat()].concat()
    }
}

/// Fills `leaves` with the n leaves of the tree of `master`: refusals 8 and 6.
pub fn expand(
    j: u32,
    n: u32,
    salt: &[u8],
    master: &[u8],
    leaves: &mut [u8],
) -> Result<(), Refusal> {
    let (j, n) = (instance(j)?, parties(n)?);
    let (salt, master) = (of_length(salt)?, of_length(master)?);
    if leaves.len() != 16 * n {
        return Err(6);
    }
    leaves.copy_from_slice(&tree_leaves(Context { salt, j }, n, master).concat());
    Ok(())
}

/// 6 for bytes that are not as many as asked for.
pub(crate) fn of_length<const N: usize>(bytes: &[u8]) -> Result<[u8; N], Refusal> {
    bytes.try_into().map_err(|_| 6)
}

/// Fills `siblings` with the opening of all leaves but p: refusals 8, 9 and 6.
pub fn open(
    j: u32,
    n: u32,
    p: u32,
    salt: &[u8],
    master: &[u8],
    siblings: &mut [u8],
) -> Result<(), Refusal> {
    let (j, n, p) = (instance(j)?, parties(n)?, p as usize);
    if p >= n {
        return Err(9);
    }
    let (salt, master) = (of_length(salt)?, of_length(master)?);
    if siblings.len() != 16 * height(n) {
        return Err(6);
    }
    siblings.copy_from_slice(&tree_opening(Context { salt, j }, n, p, master).concat());
    Ok(())
}

/// What a challenge is drawn from, beside M, tau and n.
#[derive(Clone, Copy, Debug)]
pub struct ChallengeInput<'a> {
    pub h_star: &'a [u8],
    pub salt: &'a [u8],
    /// SHA3-256 of the circuit file.
    pub circuit_digest: &'a [u8],
    pub y: &'a [u8],
    pub message: &'a [u8],
}

impl ChallengeInput<'_> {
    fn lengths_are_good(&self) -> bool {
        self.h_star.len() == 32
            && self.salt.len() == 32
            && self.circuit_digest.len() == 32
            && (1..=32).contains(&self.y.len())
            && self.message.len() <= 4096
    }

    /// Tag 6: what is hashed.
    fn bytes(&self, [m, tau, n]: [u32; 3]) -> Vec<u8> {
        let [m, tau] = [m, tau].map(|count| (count as u16).to_le_bytes());
        let len = (self.message.len() as u16).to_le_bytes();
        [
            &[6],
            self.h_star,
            self.salt,
            &m,
            &tau,
            &[n as u8],
            self.circuit_digest,
            self.y,
            &len,
            self.message,
        ]
        .concat()
    }
}

/// Fills `out` with 3 bytes for each chosen instance, ascending: its number and
/// its hidden party. Refusals 8 and 6.
pub fn challenge(
    m: u32,
    tau: u32,
    n: u32,
    input: ChallengeInput,
    out: &mut [u8],
) -> Result<(), Refusal> {
    if !(2..=512).contains(&m) || !(1..m).contains(&tau) {
        return Err(8);
    }
    parties(n)?;
    if !input.lengths_are_good() || out.len() != 3 * tau as usize {
        return Err(6);
    }
    let all = chosen([m, tau, n], input);
    for (bytes, (j, p)) in out.chunks_mut(3).zip(all) {
        let [low, high] = j.to_le_bytes();
        bytes.copy_from_slice(&[low, high, p]);
    }
    Ok(())
}

/// The chosen instances, ascending, each with its hidden party. The counts are M,
/// tau and n.
pub(crate) fn chosen(counts: [u32; 3], input: ChallengeInput) -> Vec<(u16, u8)> {
    let mut stream = vec![0; 9 * counts[1] as usize];
    shake256(&input.bytes(counts), &mut stream);
    drawn(counts, &stream)
}

/// What 9 tau bytes choose: tau instances by 8 bytes each, then a hidden party by
/// one byte for each of them, ascending.
pub fn drawn([m, tau, n]: [u32; 3], stream: &[u8]) -> Vec<(u16, u8)> {
    let (places, hidden) = stream.split_at(8 * tau as usize);
    let parties = hidden.iter().map(|byte| byte % n as u8);
    instances(m as usize, places)
        .into_iter()
        .zip(parties)
        .collect()
}

/// Each 8 bytes are a place among the instances not yet chosen, ascending.
fn instances(m: usize, places: &[u8]) -> Vec<u16> {
    let mut left: Vec<u16> = (0..m as u16).collect();
    let mut chosen = vec![];
    for bytes in places.chunks(8) {
        let number = u64::from_le_bytes(bytes.try_into().unwrap());
        let place = number % left.len() as u64;
        chosen.push(left.remove(place as usize));
    }
    chosen.sort();
    chosen
}

/// 8 for an instance number that is no u16.
fn instance(j: u32) -> Result<u16, Refusal> {
    u16::try_from(j).map_err(|_| 8)
}

/// 8 for a number of parties other than 2, 4, 8, 16, 32 and 64.
pub(crate) fn parties(n: u32) -> Result<usize, Refusal> {
    match n {
        2 | 4 | 8 | 16 | 32 | 64 => Ok(n as usize),
        _ => Err(8),
    }
}

/// log2 of n.
fn height(n: usize) -> usize {
    n.ilog2() as usize
}

/// Tag 2: the values of nodes 2k and 2k + 1.
pub(crate) fn children(context: Context, k: usize, value: Value) -> [Value; 2] {
    two_values(&context.input(2, &[&(k as u16).to_le_bytes(), &value]))
}

/// The 32 bytes that SHAKE128 gives, as two values.
fn two_values(input: &[u8]) -> [Value; 2] {
    let mut bytes = [0; 32];
    shake128(input, &mut bytes);
    let (first, second) = bytes.split_at(16);
    [first.try_into().unwrap(), second.try_into().unwrap()]
}

/// The leaves in the subtree of node k, which are nodes of n and above.
pub(crate) fn subtree_leaves(context: Context, n: usize, k: usize, value: Value) -> Vec<Value> {
    if k >= n {
        return vec![value];
    }
    let [left, right] = children(context, k, value);
    let mut leaves = subtree_leaves(context, n, 2 * k, left);
    leaves.extend(subtree_leaves(context, n, 2 * k + 1, right));
    leaves
}

/// The n leaves of a tree. Leaf i is node n + i.
pub fn tree_leaves(context: Context, n: usize, master: Value) -> Vec<Value> {
    subtree_leaves(context, n, 1, master)
}

/// The nodes from below the top to leaf p.
fn path(n: usize, p: usize) -> Vec<usize> {
    let leaf = n + p;
    (0..height(n)).rev().map(|up| leaf >> up).collect()
}

/// The siblings on the path to leaf p, top first.
pub fn tree_opening(context: Context, n: usize, p: usize, master: Value) -> Vec<Value> {
    let mut value = master;
    let siblings = path(n, p).into_iter().map(|node| {
        let both = children(context, node / 2, value);
        value = both[node % 2];
        both[1 - node % 2]
    });
    siblings.collect()
}

/// All leaves but leaf p, from the siblings on the path to it.
pub fn opened_leaves(
    context: Context,
    n: usize,
    p: usize,
    siblings: &[Value],
) -> Vec<Option<Value>> {
    let mut leaves = vec![None; n];
    for (node, &value) in path(n, p).into_iter().zip(siblings) {
        let sibling = node ^ 1;
        let below = subtree_leaves(context, n, sibling, value);
        // Node k has its first leaf at node k times their number.
        let first = sibling * below.len() - n;
        for (leaf, value) in leaves[first..].iter_mut().zip(below) {
            *leaf = Some(value);
        }
    }
    leaves
}

/// Tag 3: the seed and the r of a leaf.
pub fn seed_and_r(context: Context, i: u8, leaf: Value) -> [Value; 2] {
    two_values(&context.input(3, &[&[i], &leaf]))
}

/// Tag 4: the tape row of party i of n, its unused bits cleared. The last A
/// places of party n - 1 are unused.
pub fn tape_row(
    context: Context,
    i: u8,
    n: usize,
    seed: Value,
    inputs: usize,
    ands: usize,
) -> Vec<u8> {
    let mut row = vec![0; oct(inputs + 2 * ands)];
    shake128(&context.input(4, &[&[i], &seed]), &mut row);
    let last = usize::from(i) == n - 1;
    let used = if last { ands } else { 2 * ands };
    clear_rest(&mut row, inputs + used);
    row
}

/// Tag 1: the commitment of party i of n; the last party's takes the corrections.
pub fn commitment(
    context: Context,
    i: u8,
    n: usize,
    seed: Value,
    corrections: &[u8],
    r: Value,
) -> Digest {
    let last = usize::from(i) == n - 1;
    let corrections = if last { corrections } else { &[] };
    sha3_256(&context.input(1, &[&[i], &seed, corrections, &r]))
}

/// Tag 7: h_j, over all commitments of an instance.
pub fn commitments_digest(j: u16, commitments: &[Digest]) -> Digest {
    sha3_256(&[&[7], &j.to_le_bytes()[..], &commitments.concat()].concat())
}

/// Tag 8: h'_j, over the masked inputs and all broadcast rows of an instance.
pub fn broadcasts_digest(j: u16, masked_inputs: &[u8], rows: &[u8]) -> Digest {
    sha3_256(&[&[8], &j.to_le_bytes()[..], masked_inputs, rows].concat())
}

/// Tag 9: h, over all h_j.
pub fn all_commitments_digest(digests: &[Digest]) -> Digest {
    sha3_256(&[&[9], &digests.concat()[..]].concat())
}

/// Tag 10: h', over all h'_j.
pub fn all_broadcasts_digest(digests: &[Digest]) -> Digest {
    sha3_256(&[&[10], &digests.concat()[..]].concat())
}

/// Tag 11: h*, over h and h'.
pub fn h_star(h: Digest, h_prime: Digest) -> Digest {
    sha3_256(&[&[11], &h[..], &h_prime].concat())
}

#[cfg(test)]
mod tests {
    use super::*;
    use crate::examples::SALT;

    // The known answers were made with Python's hashlib over the same inputs.
    const J: u16 = 0x0102;
    const CONTEXT: Context = Context { salt: SALT, j: J };
    const MASTER: &str = "ed0ead082955f86b1c5cf2e10f93c409";
    const LEAVES: [&str; 4] = [
        "0e5db9de6101534ed5590ab2067c6482",
        "acae4f47631b9c9dfecad541cbe83c85",
        "e2bca0d790e01fb55796de67409371cc",
        "824fe91e39a6abc65455e7f4c129640f",
    ];
    const NODE_2: &str = "5aa9202b0aad14c3a7fcb24fc6f07536";
    const SEED: &str = "eb321bef18524e52a358b5cf3fa03ccd";
    const R: &str = "558e9300537f84befe4dcbf85aed89ef";
    const COM_LAST: &str = "eaee5c6c1743e1ae3625d8874b003f05b42b744723e8549c53358cded9e3a705";
    const COM: &str = "8e5f07c7e77a67e6234879492ba0303d0814b255fa3cc05213c41cb7a22de393";
    const H_J: &str = "65d42c798a6e5fd270ca8b79935e52666275c60437a379b76ea8b66c98c6a2bf";
    const H_PRIME_J: &str = "98a44d731c6f99a49ba8e243ce6e1239d5c7857dd03077403b9ddc94eb2d70df";
    const H: &str = "d578d155e562b773ec17ecaf8cc645bf9cd6017c4d463d31a3d8495e2b4a1d42";
    const H_PRIME: &str = "d4a059c4a6350b08ffd62be421456ae36bbb03160ea98d71e9830293e255cfa2";
    const H_STAR: &str = "1c7c582eca8da12ca05676f011d7fb2ff7c37a145ead0043f39beb2064b6996a";

    fn hex(bytes: &[u8]) -> String {
        bytes.iter().map(|byte| format!("{byte:02x}")).collect()
    }

    fn unhex<const N: usize>(digits: &str) -> [u8; N] {
        std::array::from_fn(|i| u8::from_str_radix(&digits[2 * i..2 * i + 2], 16).unwrap())
    }

    #[test]
    fn known_tree() {
        let master: Value = unhex(MASTER);
        let mut leaves = [0; 64];
        assert_eq!(expand(J.into(), 4, &SALT, &master, &mut leaves), Ok(()));
        assert_eq!(hex(&leaves), LEAVES.concat());
        let mut siblings = [0; 32];
        assert_eq!(open(J.into(), 4, 2, &SALT, &master, &mut siblings), Ok(()));
        assert_eq!(hex(&siblings), [NODE_2, LEAVES[3]].concat());
    }

    #[test]
    fn known_seed_and_row() {
        let [seed, r] = seed_and_r(CONTEXT, 3, unhex(LEAVES[3]));
        assert_eq!((hex(&seed), hex(&r)), (SEED.into(), R.into()));
        assert_eq!(tape_row(CONTEXT, 3, 8, seed, 3, 5), [0xcc, 0x07]);
        assert_eq!(tape_row(CONTEXT, 3, 4, seed, 3, 5), [0xcc, 0x00]);
    }

    #[test]
    fn known_commitments_and_digests() {
        let last = commitment(CONTEXT, 3, 4, unhex(SEED), &[0x15], unhex(R));
        let other = commitment(CONTEXT, 3, 8, unhex(SEED), &[0x15], unhex(R));
        assert_eq!((hex(&last), hex(&other)), (COM_LAST.into(), COM.into()));
        let h_j = commitments_digest(J, &[last, other]);
        let h_prime_j = broadcasts_digest(J, &[5], &[1, 2, 3, 4]);
        assert_eq!((hex(&h_j), hex(&h_prime_j)), (H_J.into(), H_PRIME_J.into()));
        let h = all_commitments_digest(&[h_j, h_j]);
        let h_prime = all_broadcasts_digest(&[h_prime_j, h_prime_j]);
        assert_eq!((hex(&h), hex(&h_prime)), (H.into(), H_PRIME.into()));
        assert_eq!(hex(&h_star(h, h_prime)), H_STAR);
    }

    #[test]
    fn known_challenges() {
        let h_star: Digest = unhex(H_STAR);
        let digest: Digest = std::array::from_fn(|i| 0x40 + i as u8);
        let input = |y, message| ChallengeInput {
            h_star: &h_star,
            salt: &SALT,
            circuit_digest: &digest,
            y,
            message,
        };
        let short = chosen([300, 5, 16], input(&[0xf5, 1, 0], b"message"));
        assert_eq!(short, [(146, 3), (196, 8), (221, 15), (272, 15), (292, 7)]);
        let long = chosen([300, 5, 16], input(&[0xa5; 32], &[7; 4096]));
        assert_eq!(long, [(99, 0), (114, 9), (121, 1), (244, 15), (258, 13)]);
        let mut out = [0xee; 3];
        assert_eq!(challenge(2, 1, 2, input(&[1], b""), &mut out), Ok(()));
        assert_eq!(out, [0, 0, 0]);
    }

    #[test]
    fn an_opening_gives_all_leaves_but_one() {
        for n in [2, 4, 8, 16, 32, 64] {
            let leaves = tree_leaves(CONTEXT, n, [3; 16]);
            for p in 0..n {
                let opening = tree_opening(CONTEXT, n, p, [3; 16]);
                let opened = opened_leaves(CONTEXT, n, p, &opening);
                let mut expected: Vec<_> = leaves.iter().copied().map(Some).collect();
                expected[p] = None;
                assert_eq!(opened, expected, "n {n}, p {p}");
            }
        }
    }

    #[test]
    fn refusals_in_order() {
        let mut none = [];
        assert_eq!(expand(65_536, 2, &SALT, &[0; 16], &mut [0; 32]), Err(8));
        for n in [0, 1, 3, 24, 48, 63, 65, 96, 128, 256 + 64] {
            assert_eq!(expand(0, n, &[], &[], &mut none), Err(8));
        }
        assert_eq!(expand(0, 2, &SALT, &[], &mut [0; 32]), Err(6));
        assert_eq!(expand(0, 2, &SALT, &[0; 16], &mut [0; 31]), Err(6));
        assert_eq!(open(0, 1, 9, &[], &[], &mut none), Err(8));
        assert_eq!(open(0, 2, 2, &[], &[], &mut none), Err(9));
        assert_eq!(open(0, 2, 1, &SALT, &[0; 16], &mut [0; 32]), Err(6));
    }

    #[test]
    fn salts_of_another_length() {
        for len in [0, 1, 16, 31, 33, 64, 256 + 32] {
            let salt = vec![0; len];
            assert_eq!(expand(0, 2, &salt, &[0; 16], &mut [0; 32]), Err(6));
            assert_eq!(open(0, 2, 1, &salt, &[0; 16], &mut [0; 16]), Err(6));
        }
        assert_eq!(expand(0, 2, &[0; 32], &[0; 16], &mut [0; 32]), Ok(()));
    }

    /// Of two salts no leaf, no seed, no r, no row and no commitment is the same.
    #[test]
    fn two_salts() {
        let of = |salt| {
            let context = Context { salt, j: J };
            let leaves = tree_leaves(context, 4, [3; 16]);
            let [seed, r] = seed_and_r(context, 1, [3; 16]);
            let row = tape_row(context, 1, 4, [3; 16], 100, 14);
            let com = commitment(context, 1, 4, [3; 16], &[], [3; 16]);
            let values = [seed, r].concat();
            [leaves.concat(), values, row, com.to_vec()]
        };
        for place in 0..32 {
            let mut other = SALT;
            other[place] ^= 0x10;
            for (one, other) in of(SALT).iter().zip(&of(other)) {
                let mut pairs = one.chunks(16).zip(other.chunks(16));
                assert!(pairs.all(|(one, other)| one != other), "byte {place}");
            }
        }
    }

    /// The lengths are those of h*, the salt, the digest, y, the message and the output.
    #[test]
    fn refusals_of_challenge_in_order() {
        let of_lengths = |tau, lens: [usize; 6]| {
            let bytes = [0xee; 4097];
            let [h_star, salt, circuit_digest, y, message] =
                [0, 1, 2, 3, 4].map(|i| &bytes[..lens[i]]);
            let input = ChallengeInput {
                h_star,
                salt,
                circuit_digest,
                y,
                message,
            };
            let mut out = vec![0xee; lens[5]];
            let answer = challenge(4, tau, 2, input, &mut out);
            assert!(answer.is_ok() || out == vec![0xee; lens[5]]);
            answer
        };
        let good = [32, 32, 32, 1, 0, 9];
        assert_eq!(of_lengths(3, good), Ok(()));
        assert_eq!(of_lengths(3, [32, 32, 32, 32, 4096, 9]), Ok(()));
        assert_eq!(of_lengths(4, good), Err(8));
        let wrong: &[usize] = &[0, 31, 33];
        let bad: [&[usize]; 6] = [wrong, wrong, wrong, &[0, 33], &[4097], &[0, 8, 10]];
        for (place, lens) in bad.into_iter().enumerate() {
            for &len in lens {
                let mut lens = good;
                lens[place] = len;
                assert_eq!(of_lengths(3, lens), Err(6), "{lens:?}");
                assert_eq!(of_lengths(4, lens), Err(8), "{lens:?}");
            }
        }
    }
}
