//! Bits packed lowest first; the unused bits of a last byte are zero.

/// The bytes for `count` bits.
pub fn oct(count: usize) -> usize {
    count.div_ceil(8)
}

pub fn get(bytes: &[u8], place: usize) -> bool {
    bytes[place / 8] >> (place % 8) & 1 != 0
}

pub fn put(bytes: &mut [u8], place: usize, bit: bool) {
    bytes[place / 8] &= !(1 << (place % 8));
    bytes[place / 8] |= u8::from(bit) << (place % 8);
}

/// Are all bits from place `count` on zero?
pub fn rest_is_zero(bytes: &[u8], count: usize) -> bool {
    (count..8 * bytes.len()).all(|place| !get(bytes, place))
}

/// Clears all bits from place `count` on.
pub fn clear_rest(bytes: &mut [u8], count: usize) {
    for place in count..8 * bytes.len() {
        put(bytes, place, false);
    }
}

#[cfg(test)]
mod tests {
    use super::*;

    #[test]
    fn lowest_bit_is_first() {
        let mut bytes = [0xff, 0x00];
        put(&mut bytes, 1, false);
        put(&mut bytes, 8, true);
        assert_eq!(bytes, [0xfd, 0x01]);
        assert!(get(&bytes, 8) && !get(&bytes, 1));
    }

    #[test]
    fn rest_of_a_byte() {
        assert_eq!([0, 1, 8, 9].map(oct), [0, 1, 1, 2]);
        let mut bytes = [0xff, 0xff];
        clear_rest(&mut bytes, 11);
        assert_eq!(bytes, [0xff, 0x07]);
        assert!(rest_is_zero(&bytes, 11) && !rest_is_zero(&bytes, 10));
    }
}
