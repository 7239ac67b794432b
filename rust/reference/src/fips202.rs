//! FIPS 202: SHA3-256, SHAKE128 and SHAKE256 over Keccak-f[1600].
//!
//! Section and algorithm numbers in the comments are those of the standard.

/// The state: lane (x, y) stands at place x + 5y (section 3.1.2).
type State = [u64; 25];

const ROUNDS: usize = 24;
const ROUND_CONSTANTS: [u64; ROUNDS] = round_constants();
const OFFSETS: [u32; 25] = offsets();

/// Rates in bytes: 200 less twice the strength.
const RATE_SHAKE128: usize = 168;
const RATE_256: usize = 136;

/// The suffix bits of section 6, lowest first, with the first bit of the padding.
const SUFFIX_SHA3: u8 = 0x06;
const SUFFIX_SHAKE: u8 = 0x1f;

/// The digest of `message` under SHA3-256.
pub fn sha3_256(message: &[u8]) -> [u8; 32] {
    let mut digest = [0; 32];
    sponge(RATE_256, SUFFIX_SHA3, message, &mut digest);
    digest
}

/// Fills `output` with SHAKE128 of `message`.
pub fn shake128(message: &[u8], output: &mut [u8]) {
    sponge(RATE_SHAKE128, SUFFIX_SHAKE, message, output);
}

/// Fills `output` with SHAKE256 of `message`.
pub fn shake256(message: &[u8], output: &mut [u8]) {
    sponge(RATE_256, SUFFIX_SHAKE, message, output);
}

/// The sponge (algorithm 8): absorb the padded message, then squeeze.
fn sponge(rate: usize, suffix: u8, message: &[u8], output: &mut [u8]) {
    let mut state = [0; 25];
    let blocks = message.chunks_exact(rate);
    let last = padded(rate, suffix, blocks.remainder());
    for block in blocks {
        absorb(&mut state, block);
    }
    absorb(&mut state, &last[..rate]);
    squeeze(&mut state, rate, output);
}

/// The last block: the rest of the message, the suffix and pad10*1 (algorithm 9).
fn padded(rate: usize, suffix: u8, rest: &[u8]) -> [u8; 200] {
    let mut block = [0; 200];
    block[..rest.len()].copy_from_slice(rest);
    block[rest.len()] ^= suffix;
    block[rate - 1] ^= 0x80;
    block
}

/// XORs one block into the state and permutes it.
fn absorb(state: &mut State, block: &[u8]) {
    for (lane, bytes) in state.iter_mut().zip(block.chunks_exact(8)) {
        *lane ^= u64::from_le_bytes(bytes.try_into().unwrap());
    }
    keccak_f(state);
}

/// Copies out a block of the rate at a time, permuting between two blocks.
fn squeeze(state: &mut State, rate: usize, output: &mut [u8]) {
    for (i, block) in output.chunks_mut(rate).enumerate() {
        if i > 0 {
            keccak_f(state);
        }
        for (bytes, lane) in block.chunks_mut(8).zip(state.iter()) {
            bytes.copy_from_slice(&lane.to_le_bytes()[..bytes.len()]);
        }
    }
}

/// Keccak-f[1600] (section 3.4): 24 rounds of the five step mappings.
fn keccak_f(state: &mut State) {
    for constant in ROUND_CONSTANTS {
        *state = chi(&pi(&rho(&theta(state))));
        state[0] ^= constant; // iota
    }
}

/// Algorithm 1: each lane takes the parities of two columns beside it.
#[inline(always)]
fn theta(a: &State) -> State {
    let mut parity = [0; 5];
    for x in 0..5 {
        parity[x] = a[x] ^ a[x + 5] ^ a[x + 10] ^ a[x + 15] ^ a[x + 20];
    }
    let mut out = *a;
    for x in 0..5 {
        let effect = parity[(x + 4) % 5] ^ parity[(x + 1) % 5].rotate_left(1);
        for y in 0..5 {
            out[x + 5 * y] ^= effect;
        }
    }
    out
}

/// Algorithm 2: each lane is rotated by its offset.
#[inline(always)]
fn rho(a: &State) -> State {
    let mut out = *a;
    for (lane, offset) in out.iter_mut().zip(OFFSETS) {
        *lane = lane.rotate_left(offset);
    }
    out
}

/// Algorithm 3: the lanes change places.
#[inline(always)]
fn pi(a: &State) -> State {
    let mut out = [0; 25];
    for y in 0..5 {
        for x in 0..5 {
            out[x + 5 * y] = a[(x + 3 * y) % 5 + 5 * x];
        }
    }
    out
}

/// Algorithm 4: the one step that is not linear, along each row.
#[inline(always)]
fn chi(a: &State) -> State {
    let mut out = [0; 25];
    for y in 0..5 {
        for x in 0..5 {
            let next = a[(x + 1) % 5 + 5 * y];
            let after = a[(x + 2) % 5 + 5 * y];
            out[x + 5 * y] = a[x + 5 * y] ^ (!next & after);
        }
    }
    out
}

/// The offsets of algorithm 2, along its walk over (x, y) from (1, 0).
const fn offsets() -> [u32; 25] {
    let mut out = [0; 25];
    let (mut x, mut y) = (1, 0);
    let mut t = 0;
    while t < 24 {
        out[x + 5 * y] = (t + 1) * (t + 2) / 2 % 64;
        (x, y) = (y, (2 * x + 3 * y) % 5);
        t += 1;
    }
    out
}

/// The constants of algorithm 6: bit 2^j - 1 of round i is rc(j + 7i).
const fn round_constants() -> [u64; ROUNDS] {
    let mut out = [0; ROUNDS];
    let mut k = 0;
    while k < 7 * ROUNDS {
        out[k / 7] |= (rc(k) as u64) << ((1 << (k % 7)) - 1);
        k += 1;
    }
    out
}

/// Algorithm 5: the bit that a shift register of 8 bits gives after t steps.
const fn rc(t: usize) -> bool {
    let mut register: u32 = 1; // bit i is R[i]
    let mut step = 0;
    while step < t % 255 {
        register <<= 1;
        if register & 0x100 != 0 {
            register ^= 0x171; // R[8] goes into R[0], R[4], R[5], R[6] and falls off
        }
        step += 1;
    }
    register & 1 != 0
}

#[cfg(test)]
mod tests {
    use super::*;

    /// Table 2 of the standard, modulo 64, with rows y = 0..4 and columns x = 0..4.
    #[test]
    fn offsets_are_table_2() {
        let table = [
            [0, 1, 62, 28, 27],
            [36, 44, 6, 55, 20],
            [3, 10, 43, 25, 39],
            [41, 45, 15, 21, 8],
            [18, 2, 61, 56, 14],
        ];
        assert_eq!(OFFSETS.as_slice(), table.concat());
    }

    #[test]
    fn round_constants_have_known_values() {
        assert_eq!(ROUND_CONSTANTS[0], 0x0000_0000_0000_0001);
        assert_eq!(ROUND_CONSTANTS[1], 0x0000_0000_0000_8082);
        assert_eq!(ROUND_CONSTANTS[2], 0x8000_0000_0000_808a);
        assert_eq!(ROUND_CONSTANTS[22], 0x0000_0000_8000_0001);
        assert_eq!(ROUND_CONSTANTS[23], 0x8000_0000_8000_8008);
    }

    #[test]
    fn register_has_period_255() {
        for t in 0..255 {
            assert_eq!(rc(t), rc(t + 255));
        }
        assert_eq!((0..255).filter(|&t| rc(t)).count(), 128);
    }

    #[test]
    fn permutation_of_the_zero_state() {
        let mut state = [0; 25];
        keccak_f(&mut state);
        assert_eq!(state[0], 0xf125_8f79_40e1_dde7);
        assert_eq!(state[1], 0x84d5_ccf9_33c0_478a);
        assert_eq!(state[24], 0xeaf1_ff7b_5cec_a249);
    }

    /// A block with one free byte holds suffix and end bit in that byte.
    #[test]
    fn padding_of_one_byte() {
        let block = padded(136, SUFFIX_SHA3, &[0xff; 135]);
        assert_eq!(block[135], 0x86);
        let block = padded(168, SUFFIX_SHAKE, &[0xff; 167]);
        assert_eq!(block[167], 0x9f);
    }
}
