//! Calls of functions that build a circuit file, by both implementations: answers and
//! every lent byte are compared.

use crate::guarded::Guarded;
use crate::random::Random;
use reference::small::Small;
use wivulameno::Refusal;

/// Builds by both into `out_len` bytes; gives the whole buffer after a success, and
/// the length that was written. What is lent must be the same afterwards, and as before
/// if it was not to be written. `second` is the reference's call.
pub fn compare(
    random: &mut Random,
    inputs: &[&[u8]],
    out_len: usize,
    second: impl FnOnce(&mut [u8]) -> Result<usize, u32>,
    ours: impl FnOnce(&[&[u8]], &mut [u8], &mut u64) -> Result<(), Refusal>,
) -> Result<(Vec<u8>, usize), u32> {
    let lent = inputs.iter();
    let lent: Vec<Guarded> = lent.map(|bytes| Guarded::holding(random, bytes)).collect();
    let shift = random.below(8);
    let mut out = Guarded::new(random, shift, out_len);
    let mut expected = out.get().to_vec();
    let second = second(&mut expected);

    let before = [0; 3].map(|_| random.word());
    let mut words = before;
    let read: Vec<&[u8]> = lent.iter().map(Guarded::get).collect();
    let ours = ours(&read, out.lent(), &mut words[1]);
    let shown = shown(inputs, out_len);
    let answer = second.map(|_| ()).map_err(Refusal::of);
    assert_eq!(ours, answer, "{shown}");
    let written = second.map_or(before[1], |len| len as u64);
    assert_eq!(words, [before[0], written, before[2]], "written, {shown}");
    assert!(out.get() == expected, "output, {shown}");
    assert!(out.outside_unchanged(), "beside the output, {shown}");
    assert!(second.is_ok() || out.unchanged(), "refused, {shown}");
    assert!(lent.iter().all(Guarded::unchanged), "inputs, {shown}");
    second.map(|len| (expected, len))
}

/// For the message of a failure.
pub fn shown(inputs: &[&[u8]], out_len: usize) -> String {
    let heads = inputs.iter().map(|bytes| {
        let head = &bytes[..bytes.len().min(60)];
        format!(", {} bytes {head:02x?}", bytes.len())
    });
    format!("output of {out_len}{}", heads.collect::<String>())
}

/// Joins two files by both.
pub fn compare_join(
    random: &mut Random,
    first: &[u8],
    second: &[u8],
    out_len: usize,
) -> Result<(Vec<u8>, usize), u32> {
    compare(
        random,
        &[first, second],
        out_len,
        |out| reference::join::join(first, second, out),
        |lent, out, written| wivulameno::circuit::join_into(lent[0], lent[1], out, written),
    )
}

/// The small circuit at a place by both; a length of 0 says that the last has passed.
/// `list` is the reference's for these sizes: I, O and G.
pub fn compare_small(
    random: &mut Random,
    list: &Result<Small, u32>,
    [inputs, outputs, gates]: [u32; 3],
    place: u64,
    out_len: usize,
) -> Result<(Vec<u8>, usize), u32> {
    compare(
        random,
        &[],
        out_len,
        |out| {
            let list = list.as_ref().map_err(|&number| number)?;
            Ok(list.at(place, out)?.unwrap_or(0))
        },
        |_, out, written| {
            wivulameno::circuit::small_into(inputs, outputs, gates, place, out, written)
        },
    )
}

#[cfg(test)]
mod tests {
    use super::*;

    /// A builder that writes these bytes, and is said to have written so many.
    fn builds(bytes: &[u8], len: u64) -> Result<(Vec<u8>, usize), u32> {
        compare(
            &mut Random::new(1),
            &[],
            4,
            |out| {
                out[..2].copy_from_slice(&[1, 2]);
                Ok(2)
            },
            |_, out, written| {
                out[..bytes.len()].copy_from_slice(bytes);
                *written = len;
                Ok(())
            },
        )
    }

    #[test]
    fn the_same() {
        let (out, len) = builds(&[1, 2], 2).expect("built");
        assert_eq!((&out[..2], out.len(), len), (&[1, 2][..], 4, 2));
    }

    #[test]
    #[should_panic(expected = "output, ")]
    fn a_byte_too_many() {
        let _ = builds(&[1, 2, 0], 2);
    }

    #[test]
    #[should_panic(expected = "written, ")]
    fn another_length() {
        let _ = builds(&[1, 2], 3);
    }
}
