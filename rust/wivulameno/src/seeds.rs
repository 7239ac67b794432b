//! Seed trees and the challenge: what a proof is made of, for tests and for a
//! closer look.

use crate::{answer, answer_burned, Refusal};

extern "C" {
    fn wv_expand(
        j: u32,
        n: u32,
        salt: *const u8,
        salt_len: usize,
        master: *const u8,
        master_len: usize,
        leaves: *mut u8,
        leaves_len: usize,
    ) -> u32;
    fn wv_open(
        j: u32,
        n: u32,
        p: u32,
        salt: *const u8,
        salt_len: usize,
        master: *const u8,
        master_len: usize,
        siblings: *mut u8,
        siblings_len: usize,
    ) -> u32;
    fn wv_masters(
        m: u32,
        salt: *const u8,
        salt_len: usize,
        root: *const u8,
        root_len: usize,
        masters: *mut u8,
        masters_len: usize,
    ) -> u32;
    fn wv_cover(
        m: u32,
        hidden: *const u8,
        hidden_len: usize,
        salt: *const u8,
        salt_len: usize,
        root: *const u8,
        root_len: usize,
        nodes: *mut u8,
        nodes_len: usize,
    ) -> u32;
    fn wv_challenge(
        m: u32,
        tau: u32,
        n: u32,
        hstar: *const u8,
        hstar_len: usize,
        salt: *const u8,
        salt_len: usize,
        digest: *const u8,
        digest_len: usize,
        y: *const u8,
        y_len: usize,
        message: *const u8,
        message_len: usize,
        out: *mut u8,
        out_len: usize,
    ) -> u32;
}

/// Fills `leaves` with the n leaves of the tree of `master`, 16 bytes each, for
/// the instance j, 0 to
/// [`MAX_INSTANCE_NUMBER`](crate::limits::MAX_INSTANCE_NUMBER). The salt is that of the
/// proof, 32 bytes; every node takes it. Refuses with 8, 6.
///
/// Never use 65,535 for an instance: it is the number of the tree over the masters,
/// and over a root it gives the [`masters`] of n instances.
pub fn expand(
    j: u32,
    n: u32,
    salt: &[u8],
    master: &[u8],
    leaves: &mut [u8],
) -> Result<(), Refusal> {
    // SAFETY: the slices are valid for their lengths and `leaves` overlaps no other.
    answer_burned(unsafe {
        wv_expand(
            j,
            n,
            salt.as_ptr(),
            salt.len(),
            master.as_ptr(),
            master.len(),
            leaves.as_mut_ptr(),
            leaves.len(),
        )
    })
}

/// Fills `siblings` with the opening of all leaves but leaf p: 16 bytes for each
/// level of the tree, top first. Refuses with 8, 9, 6.
pub fn open(
    j: u32,
    n: u32,
    p: u32,
    salt: &[u8],
    master: &[u8],
    siblings: &mut [u8],
) -> Result<(), Refusal> {
    // SAFETY: the slices are valid for their lengths and `siblings` overlaps no other.
    answer_burned(unsafe {
        wv_open(
            j,
            n,
            p,
            salt.as_ptr(),
            salt.len(),
            master.as_ptr(),
            master.len(),
            siblings.as_mut_ptr(),
            siblings.len(),
        )
    })
}

/// Fills `masters` with the masters of the instances 0 to M - 1, 16 bytes each. They
/// are the first M leaves of one tree over the root, whose leaves are the least power
/// of two that is at least M. Refuses with 8 for M, 6 for a salt that is not of 32 bytes,
/// a root that is not of 16 or `masters` that are not of 16 M.
pub fn masters(m: u32, salt: &[u8], root: &[u8], masters: &mut [u8]) -> Result<(), Refusal> {
    // SAFETY: the slices are valid for their lengths and `masters` overlaps no other.
    answer_burned(unsafe {
        wv_masters(
            m,
            salt.as_ptr(),
            salt.len(),
            root.as_ptr(),
            root.len(),
            masters.as_mut_ptr(),
            masters.len(),
        )
    })
}

/// Fills `nodes` with the opening of all masters but the hidden ones: the values of
/// the fewest nodes of the masters' tree from which all others follow and no hidden
/// one does, 16 bytes each, ascending by the nodes' numbers. `hidden` is a list of
/// leaves below M, two bytes each, the lower first, in any order; a leaf may be there
/// more than once. If all are hidden, no node is opened.
///
/// Refuses with 8 for M, 9 for a list without a leaf or with one that is not below M,
/// 6 for a salt that is not of 32 bytes, a root that is not of 16, `nodes` that are not of
/// 16 for each opened node, or a list of an odd number of bytes.
pub fn cover(
    m: u32,
    hidden: &[u8],
    salt: &[u8],
    root: &[u8],
    nodes: &mut [u8],
) -> Result<(), Refusal> {
    // SAFETY: the slices are valid for their lengths and `nodes` overlaps no other.
    answer_burned(unsafe {
        wv_cover(
            m,
            hidden.as_ptr(),
            hidden.len(),
            salt.as_ptr(),
            salt.len(),
            root.as_ptr(),
            root.len(),
            nodes.as_mut_ptr(),
            nodes.len(),
        )
    })
}

/// What a challenge covers beside M, tau and n: the first message of the proof,
/// h*, its salt, and the statement.
#[derive(Clone, Copy, Debug)]
pub struct ChallengeInput<'a> {
    /// 32 bytes.
    pub h_star: &'a [u8],
    /// The salt of the proof, 32 bytes.
    pub salt: &'a [u8],
    /// SHA3-256 of the circuit file, 32 bytes.
    pub circuit_digest: &'a [u8],
    /// The claimed outputs, packed into 1 to 32 bytes. Unused bits are not tested.
    pub y: &'a [u8],
    /// Up to [`MAX_MESSAGE`](crate::limits::MAX_MESSAGE) bytes.
    pub message: &'a [u8],
}

/// Fills `out` with 3 bytes for each chosen instance, ascending: its number (two
/// bytes, the lower first) and its hidden party. They are drawn from SHAKE256 of
/// 6, h*, the salt, M, tau (two bytes each), n, the circuit's digest, y, the message's
/// length (two bytes) and the message.
///
/// Refuses with 8 for M, tau or n, 6 for a length that is not as in
/// [`ChallengeInput`], or an `out` that is not of 3 tau bytes.
pub fn challenge(
    m: u32,
    tau: u32,
    n: u32,
    input: ChallengeInput,
    out: &mut [u8],
) -> Result<(), Refusal> {
    let ChallengeInput {
        h_star,
        salt,
        circuit_digest,
        y,
        message,
    } = input;
    // SAFETY: the slices are valid for their lengths and `out` overlaps no other.
    answer(unsafe {
        wv_challenge(
            m,
            tau,
            n,
            h_star.as_ptr(),
            h_star.len(),
            salt.as_ptr(),
            salt.len(),
            circuit_digest.as_ptr(),
            circuit_digest.len(),
            y.as_ptr(),
            y.len(),
            message.as_ptr(),
            message.len(),
            out.as_mut_ptr(),
            out.len(),
        )
    })
}
