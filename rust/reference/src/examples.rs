//! Circuits and a salt that several tests use.

use crate::seeds::Salt;

/// The bytes of a file whose fields are these.
pub const fn file<const WORDS: usize, const BYTES: usize>(words: [u32; WORDS]) -> [u8; BYTES] {
    assert!(BYTES == 4 * WORDS);
    let mut bytes = [0; BYTES];
    let mut place = 0;
    while place < BYTES {
        bytes[place] = words[place / 4].to_le_bytes()[place % 4];
        place += 1;
    }
    bytes
}

/// The circuit K of the scope paper: one AND of two inputs.
pub const K: [u8; 36] = file([2, 1, 1, 1, 2, 2, 0, 1, 0]);

/// Three inputs: slot 2 is NOT x, slot 3 is y AND slot 2, slot 1 is z AND
/// slot 3, slot 4 is slot 1 XOR y. The outputs are slots 4 and 3 and input z.
pub const FOUR: [u8; 92] = file([
    3, 3, 4, 2, 6, 5, 2, // head and outputs
    2, 2, 5, 4, // slot 1
    3, 0, 0, 3, // slot 2
    2, 1, 4, 1, // slot 3
    1, 3, 1, 0, // slot 4
]);

/// The salt of the known answers: 0xb0, 0xb1 and so on.
pub const SALT: Salt = {
    let mut salt = [0; 32];
    let mut place = 0;
    while place < 32 {
        salt[place] = 0xb0 + place as u8;
        place += 1;
    }
    salt
};
