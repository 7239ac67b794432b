//! Proofs about rows that others may not read: safe functions over the static
//! library `libwivulameno.a`, and a shelf of roots in files.
//!
//! | module | what is there |
//! | --- | --- |
//! | [`circuit`] | read a circuit, evaluate it, convert a text or an old file to one, join two, ask for one of several outputs, list the small ones |
//! | [`proof`] | prove and check; one checker for up to 16 callers; how long a proof is, and how sound |
//! | [`store`] | shelf and log in files, in the order of writes that survives a cut |
//! | [`shelf`] | shelf pages in memory, for a host with a log of its own |
//! | [`mpc`], [`seeds`] | the parts that proofs are made of |
//! | [`Work`] | the memory that a prove, a check or a run works in, used again |
//! | [`limits`] | the largest sizes and counts |
//!
//! A depot proves that two bits of a row are both 1, and a buyer checks it:
//!
//! ```
//! use wivulameno::circuit::sizes;
//! use wivulameno::proof::{check, longest_proof, prove, Counts, Statement};
//! use wivulameno::{Shelf, Work};
//!
//! # let folder = std::env::temp_dir().join(format!("wivulameno-lib-{}", std::process::id()));
//! # std::fs::create_dir_all(&folder)?;
//! # let (page, log) = (folder.join("shelf.page"), folder.join("shelf.log"));
//! # let (sixteen_random_bytes, salt) = ([7; 16], [9; 32]);
//! // Two inputs, one output, one gate: wire 2 is wire 0 AND wire 1.
//! let fields: [u32; 9] = [2, 1, 1, 1, 2, 2, 0, 1, 0];
//! let circuit = fields.map(u32::to_le_bytes).concat();
//! let statement = Statement { circuit: &circuit, y: &[1], message: b"order 4711" };
//!
//! // The depot: a new root for each proof, counted on disk when it is drawn.
//! let mut shelf = Shelf::create(&page, &log, 255)?;
//! shelf.stock(&sixteen_random_bytes)?;
//! let counts = Counts { m: 145, tau: 66, n: 8 };
//! let mut proof = vec![0; longest_proof(sizes(&circuit)?, counts).expect("legal counts")];
//! let mut work = Work::for_circuit(&circuit)?;
//! let root = shelf.draw()?; // and a salt: 32 new random bytes
//! let len = prove(statement, &[0b11], &root, &salt, counts, &mut proof, &mut work)?;
//! proof.truncate(len);
//!
//! // The buyer: the depot chose the counts, so they are looked at.
//! check(statement, &proof, &mut work)?;
//! let bits = Counts::of_proof(&proof).and_then(Counts::soundness_bits);
//! assert!(bits >= Some(128.0));
//! let other = Statement { message: b"order 4712", ..statement };
//! assert!(check(other, &proof, &mut work).is_err());
//! # std::fs::remove_dir_all(&folder)?;
//! # Ok::<(), Box<dyn std::error::Error>>(())
//! ```
//!
//! # The library's conditions
//!
//! A slice gives the library what it asks of a lent buffer: a valid pointer that
//! is not null, its length, and no overlap of what is written with anything else.
//! A refused call leaves every lent byte as it was, but for a [`Work`] buffer.
//!
//! After each call that is lent a secret, but for those of [`store`], the crate burns
//! the stack ([`burn_stack`]), and the library leaves its work buffer all zero. The buffers that
//! the caller fills with a witness, a root or tapes are the caller's to clear.
//!
//! The library is built for x86-64 Linux. [`store::Disk`] relies on Unix to keep a
//! page from other users' eyes, to wait until a file's name is on disk, and to
//! see that two names are one file.
#![warn(missing_docs, missing_debug_implementations)]

mod ffi;
mod refusal;
mod stack;
mod work;

pub mod circuit;
pub mod limits;
pub mod mpc;
pub mod proof;
pub mod seeds;
pub mod shelf;
pub mod store;

pub use refusal::Refusal;
pub use stack::burn_stack;
pub use store::{Log, Shelf};
pub use work::Work;

use limits::DIGEST_LEN;

/// The version of this crate, which is that of the C headers and of `wv`.
pub const VERSION: &str = env!("CARGO_PKG_VERSION");

/// The version of the proved library that is linked: its major, minor and patch
/// number.
pub fn library_version() -> [u32; 3] {
    // SAFETY: the function takes nothing.
    let version = unsafe { ffi::wv_version() };
    [version / 65536, version / 256 % 256, version % 256]
}

/// The program in Rust of `docs/embedding.md`, as it stands there.
#[cfg(doctest)]
#[doc = include_str!("../../../docs/embedding.md")]
struct Readme;

fn answer(status: u32) -> Result<(), Refusal> {
    match status {
        0 => Ok(()),
        number => Err(Refusal::of(number)),
    }
}

/// The answer of a call that was lent a secret: the stack is burned first, from the
/// frame that made the call.
#[inline(always)]
fn answer_burned(status: u32) -> Result<(), Refusal> {
    burn_stack();
    answer(status)
}

/// The digest of `message` under SHA3-256 (FIPS 202).
pub fn sha3_256(message: &[u8]) -> [u8; DIGEST_LEN] {
    let mut digest = [0; DIGEST_LEN];
    sha3_256_into(message, &mut digest);
    digest
}

/// Writes the digest of `message` into `digest`.
pub fn sha3_256_into(message: &[u8], digest: &mut [u8; DIGEST_LEN]) {
    // SAFETY: both are valid for their lengths and do not overlap.
    let status = unsafe { ffi::wv_sha3_256(message.as_ptr(), message.len(), digest) };
    answer(status).expect("SHA3-256 refuses nothing");
}

/// Fills `output` with SHAKE128 (FIPS 202) of `message`.
pub fn shake128(message: &[u8], output: &mut [u8]) {
    // SAFETY: both slices are valid for their lengths and do not overlap.
    let status = unsafe {
        ffi::wv_shake128(
            message.as_ptr(),
            message.len(),
            output.as_mut_ptr(),
            output.len(),
        )
    };
    answer(status).expect("SHAKE128 refuses nothing");
}

/// Fills `output` with SHAKE256 (FIPS 202) of `message`.
pub fn shake256(message: &[u8], output: &mut [u8]) {
    // SAFETY: both slices are valid for their lengths and do not overlap.
    let status = unsafe {
        ffi::wv_shake256(
            message.as_ptr(),
            message.len(),
            output.as_mut_ptr(),
            output.len(),
        )
    };
    answer(status).expect("SHAKE256 refuses nothing");
}
