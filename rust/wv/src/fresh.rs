//! New roots and salts, from the operating system's random source.

use crate::failure::{at, Failure};
use std::fs::File;
use std::io::Read;
use wivulameno::limits::{ROOT_LEN, SALT_LEN};

const SOURCE: &str = "/dev/urandom";

/// 16 new random bytes.
pub fn root() -> Result<Vec<u8>, Failure> {
    bytes(ROOT_LEN)
}

/// 32 new random bytes.
pub fn salt() -> Result<Vec<u8>, Failure> {
    bytes(SALT_LEN)
}

fn bytes(len: usize) -> Result<Vec<u8>, Failure> {
    let mut bytes = vec![0; len];
    let mut source = File::open(SOURCE).map_err(at(SOURCE))?;
    source.read_exact(&mut bytes).map_err(at(SOURCE))?;
    Ok(bytes)
}
