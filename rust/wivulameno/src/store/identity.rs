//! The identity of a shelf, and the order of slots that follows from it.
//!
//! A page has no room for a name. But stocking and drawing move slots between
//! the front of the spare chain and the front of the ready chain, so the ready
//! chain backwards and then the spare chain are the slots in an order that never
//! changes. A new page has its slots in the order that the log's identity gives:
//! so it is seen which shelf a page belongs to, whatever was stocked and drawn.

use super::page::{from_hex, hex};
use crate::shake128;
use std::collections::hash_map::RandomState;
use std::fmt;
use std::hash::{BuildHasher, Hasher};

/// 16 bytes that no two shelves have in common.
#[derive(Clone, Copy, Debug, PartialEq, Eq)]
pub struct Identity([u8; 16]);

impl Identity {
    /// A new one. It need not be secret, only new: the keys of the standard
    /// library's hash maps are random enough.
    pub(super) fn new() -> Identity {
        let mut bytes = [0; 16];
        for (place, half) in bytes.chunks_mut(8).enumerate() {
            let mut hasher = RandomState::new().build_hasher();
            hasher.write_usize(place);
            hasher.write_u32(std::process::id());
            half.copy_from_slice(&hasher.finish().to_le_bytes());
        }
        Identity(bytes)
    }

    /// The identity in a first line that starts with `first`.
    pub(super) fn of_header(bytes: &[u8], first: &[u8]) -> Option<Identity> {
        let rest = bytes.strip_prefix(first)?;
        let (digits, end) = rest.split_at_checked(32)?;
        let identity = Identity(from_hex(digits)?);
        end.starts_with(b"\n").then_some(identity)
    }

    /// The slots 1 to `slots` in the order of this shelf.
    pub(super) fn order(&self, slots: u16) -> Vec<u16> {
        let mut order: Vec<u16> = (1..=slots).collect();
        let mut stream = vec![0; 4 * order.len()];
        let input = [b"wivulameno slots".as_slice(), &self.0].concat();
        shake128(&input, &mut stream);
        for (place, word) in stream.chunks(4).enumerate().skip(1) {
            let word = u32::from_le_bytes(word.try_into().expect("four bytes"));
            order.swap(place, word as usize % (place + 1));
        }
        order
    }
}

impl fmt::Display for Identity {
    fn fmt(&self, f: &mut fmt::Formatter) -> fmt::Result {
        f.write_str(&hex(&self.0))
    }
}

#[cfg(test)]
mod tests {
    use super::*;

    #[test]
    fn an_order_has_every_slot_once() {
        for slots in [1, 2, 3, 16, 255] {
            let mut order = Identity([7; 16]).order(slots);
            order.sort_unstable();
            assert_eq!(order, (1..=slots).collect::<Vec<u16>>());
        }
    }

    #[test]
    fn two_shelves_have_two_orders() {
        let (a, b) = (Identity::new(), Identity::new());
        assert_ne!(a, b);
        assert_ne!(a.order(255), b.order(255));
        assert_eq!(a.order(255), a.order(255));
    }
}
