//! Burning the stack.

use crate::limits::MAX_STACK;
use std::mem::MaybeUninit;

/// Words that are overwritten: what a call can have used, and the few words that the
/// frame of a caller in between can hold.
const WORDS: usize = MAX_STACK / 8 + 64;

/// Overwrites with zeros what a call has left on the stack below the caller's frame,
/// [`MAX_STACK`] bytes and a little more. Every function of this crate that is lent a
/// witness, tapes, a root, a master or a shelf page does so before it returns, but for
/// [`replay`](crate::mpc::replay), whose tapes were shown, and those of
/// [`store`](crate::store), which hash the page once more after it. A host that hashes a secret
/// with [`sha3_256`](crate::sha3_256) or a SHAKE calls it after that, from the same
/// function.
#[inline(never)]
pub fn burn_stack() {
    let mut words = MaybeUninit::<[u64; WORDS]>::uninit();
    let first = words.as_mut_ptr().cast::<u64>();
    let mut place = 0;
    while place < WORDS {
        // SAFETY: the place is inside the array. A volatile write is not left out.
        unsafe { first.add(place).write_volatile(0) };
        place += 1;
    }
}
