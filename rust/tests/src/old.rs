//! Circuit files of the old form, damaged, and their conversion by both implementations.

use crate::guarded::Guarded;
use crate::random::Random;

/// Converts a file by both into `out_len` bytes; gives the whole buffer after a success,
/// and the file's length. What is lent must be the same afterwards.
pub fn compare(random: &mut Random, old: &[u8], out_len: usize) -> Result<(Vec<u8>, usize), u32> {
    let lent = Guarded::holding(random, old);
    let shift = random.below(8);
    let mut out = Guarded::new(random, shift, out_len);
    let mut expected = out.get().to_vec();
    let second = reference::old::upgrade(old, &mut expected);

    let before = random.word();
    let mut written = before;
    let ours = wivulameno::circuit::upgrade_into(lent.get(), out.lent(), &mut written);
    let shown = shown(old);
    let answer = second.map(|_| ()).map_err(wivulameno::Refusal::of);
    assert_eq!(ours, answer, "{shown}");
    assert_eq!(written, second.map_or(before, |len| len as u64), "{shown}");
    assert!(out.get() == expected, "output, {shown}");
    assert!(out.outside_unchanged(), "beside the output, {shown}");
    assert!(second.is_ok() || out.unchanged(), "refused, {shown}");
    let slot = wivulameno::circuit::upgrade_slot(lent.get()) as usize;
    assert_eq!(slot, reference::old::upgrade_slot(old), "slot, {shown}");
    let of_chain = matches!(second, Err(19..=21));
    assert!(of_chain || slot == 0, "slot {slot}, {shown}");
    assert!(lent.unchanged(), "the file, {shown}");
    second.map(|len| (expected, len))
}

/// For the message of a failure.
fn shown(old: &[u8]) -> String {
    let head = &old[..old.len().min(120)];
    format!("old file of {} bytes: {head:02x?}", old.len())
}

/// Changes a field, a byte or the length; the file may be legal nevertheless.
pub fn damaged_old(random: &mut Random, mut old: Vec<u8>) -> Vec<u8> {
    let field = 2 * random.below(old.len() / 2);
    match random.below(10) {
        0 => old.truncate(random.below(old.len())),
        1 => old.truncate(old.len() - 1),
        2 => old.extend([0; 8]),
        3 | 4 => old[field] ^= 1 << random.below(8),
        5 => old[field + 1] ^= 1 << random.below(8),
        6 => old[random.below(4) * 2] ^= 1 << random.below(3),
        7 => old[random.below(3) * 2 + 1] |= 1 << random.pick(&[4, 5, 6, 7]),
        kind => any_record(random, &mut old, kind),
    }
    old
}

/// Another link, or another kind, in any record.
fn any_record(random: &mut Random, old: &mut [u8], kind: usize) {
    let gates = usize::from(old[4]) + 256 * usize::from(old[5]);
    let outputs = usize::from(old[2]) + 256 * usize::from(old[3]);
    if gates == 0 {
        return;
    }
    let place = 8 + 2 * outputs + 8 * random.below(gates);
    if place + 8 > old.len() {
        return;
    }
    match kind {
        8 => {
            let link = random.from_to(0, gates + 1) as u16;
            old[place + 6..place + 8].copy_from_slice(&link.to_le_bytes());
        }
        _ => old[place + random.below(2)] = random.pick(&[0, 1, 2, 3, 4, 255]),
    }
}
