//! A second implementation, to hold the static library against.
//!
//! It is written from the standard and the papers alone, in its own
//! shape: plain functions over slices, one module for each subject.

pub mod bits;
pub mod bristol;
pub mod circuit;
#[cfg(test)]
mod examples;
pub mod fips202;
pub mod join;
pub mod masters;
pub mod mpc;
pub mod old;
pub mod one_of;
pub mod proof;
pub mod seeds;
pub mod shared;
pub mod shelf;
pub mod small;
pub mod work;

/// The number of a refusal in the papers.
pub type Refusal = u32;

/// The little-endian u16 at byte `place`.
fn u16_at(bytes: &[u8], place: usize) -> usize {
    usize::from(u16::from_le_bytes([bytes[place], bytes[place + 1]]))
}

/// The little-endian u32 at byte `place`.
fn u32_at(bytes: &[u8], place: usize) -> usize {
    let bytes = &bytes[place..place + 4];
    u32::from_le_bytes(bytes.try_into().expect("4 bytes")) as usize
}
