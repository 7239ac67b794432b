//! The functions of `include/wivulameno.h`.

use crate::limits::DIGEST_LEN;

extern "C" {
    pub fn wv_version() -> u32;
    pub fn wv_sha3_256(data: *const u8, len: usize, digest: *mut [u8; DIGEST_LEN]) -> u32;
    pub fn wv_shake128(data: *const u8, len: usize, out: *mut u8, out_len: usize) -> u32;
    pub fn wv_shake256(data: *const u8, len: usize, out: *mut u8, out_len: usize) -> u32;
}
