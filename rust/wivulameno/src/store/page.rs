//! What is read off a page, and a page made new.
//!
//! Whether a page is sound is the library's to say; the rest here is for sound
//! pages.

use crate::{sha3_256, shelf, Refusal};
use std::fmt;

/// 16 bytes of a page's SHA3-256.
#[derive(Clone, Copy, Debug, PartialEq, Eq)]
pub(super) struct Digest([u8; 16]);

pub(super) fn digest(page: &[u8]) -> Digest {
    let digest = sha3_256(page);
    Digest(digest[..16].try_into().expect("16 bytes"))
}

impl Digest {
    pub fn read(digits: &[u8]) -> Option<Digest> {
        from_hex(digits).map(Digest)
    }
}

impl fmt::Display for Digest {
    fn fmt(&self, f: &mut fmt::Formatter) -> fmt::Result {
        f.write_str(&hex(&self.0))
    }
}

pub(super) fn hex(bytes: &[u8; 16]) -> String {
    bytes.iter().map(|byte| format!("{byte:02x}")).collect()
}

/// The bytes of 32 digits in lower case.
pub(super) fn from_hex(digits: &[u8]) -> Option<[u8; 16]> {
    let text = std::str::from_utf8(digits).ok()?;
    let number = u128::from_str_radix(text, 16).ok()?;
    let bytes = number.to_be_bytes();
    (hex(&bytes).as_bytes() == digits).then_some(bytes)
}

/// The library's own test. Stocking tells an unsound page before it looks at the
/// root, and no root is empty.
pub(super) fn sound(page: &[u8]) -> Result<(), Refusal> {
    match shelf::stock(&mut page.to_vec(), &[]) {
        Err(Refusal::Length) => Ok(()),
        answer => answer,
    }
}

/// The two chains and the draws of a sound page.
pub(super) struct Page {
    pub ready: Vec<u16>,
    pub spare: Vec<u16>,
    pub draws: u32,
}

impl Page {
    pub fn of(bytes: &[u8]) -> Page {
        let draws = bytes[8..12].try_into().expect("four bytes");
        Page {
            ready: chain(bytes, 2),
            spare: chain(bytes, 4),
            draws: u32::from_le_bytes(draws),
        }
    }

    pub fn slots(&self) -> u16 {
        (self.ready.len() + self.spare.len()) as u16
    }

    /// The slots in the order that no stocking and no draw changes.
    pub fn order(&self) -> Vec<u16> {
        let ready = self.ready.iter().rev();
        ready.chain(&self.spare).copied().collect()
    }
}

/// The slots of the chain whose head stands at this place.
fn chain(bytes: &[u8], head: usize) -> Vec<u16> {
    let number = |place: usize| u16::from_le_bytes([bytes[place], bytes[place + 1]]);
    let mut slots = vec![];
    let mut slot = number(head);
    while slot != 0 {
        slots.push(slot);
        slot = number(12 + 18 * (usize::from(slot) - 1));
    }
    slots
}

/// A page without roots, its spare slots in this order.
pub(super) fn new_page(order: &[u16], draws: u32) -> Vec<u8> {
    let head = order.first().copied().unwrap_or(0);
    let mut page = Vec::new();
    for word in [order.len() as u16, 0, head, 0] {
        page.extend(word.to_le_bytes());
    }
    page.extend(draws.to_le_bytes());
    page.resize(12 + 18 * order.len(), 0);
    for pair in order.windows(2) {
        let place = 12 + 18 * (usize::from(pair[0]) - 1);
        page[place..place + 2].copy_from_slice(&pair[1].to_le_bytes());
    }
    page
}

#[cfg(test)]
mod tests {
    use super::*;

    #[test]
    fn digits_go_both_ways() {
        let bytes = *b"\x00\xff0123456789abcd";
        assert_eq!(from_hex(hex(&bytes).as_bytes()), Some(bytes));
        for wrong in ["", "0", "+1", "AA"] {
            let digits = format!("{wrong:0>32}");
            let expected = (wrong.is_empty() || wrong == "0").then_some([0; 16]);
            assert_eq!(from_hex(digits.as_bytes()), expected, "{digits}");
        }
        assert_eq!(from_hex(&[b'0'; 31]), None);
        assert_eq!(from_hex(&[b'0'; 33]), None);
    }

    #[test]
    fn the_order_stays() {
        let order = [3, 1, 4, 2];
        let mut page = new_page(&order, 7);
        assert_eq!(sound(&page), Ok(()));
        for root in [[1; 16], [2; 16], [3; 16]] {
            shelf::stock(&mut page, &root).expect("room");
        }
        shelf::draw(&mut page, 7).expect("a root");
        let found = Page::of(&page);
        assert_eq!((found.draws, found.slots()), (8, 4));
        assert_eq!(
            (found.ready.as_slice(), found.order()),
            (&[1, 3][..], order.to_vec())
        );
    }
}
