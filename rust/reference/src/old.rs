//! The circuit file as it was before its fields had 32 bits, and its conversion.
//!
//! Header I, O, G, head (16 bits each); O output wires (16 bits); records of 8 bytes:
//! kind (8 bits), zero (8 bits), a, b and next (16 bits each). G was 4,096 at most.

use crate::circuit::{Fault, Fields, Record};
use crate::{u16_at, Refusal};

const MOST_GATES: usize = 4096;

/// Writes the file of the present form, with the same slots and chain, to the start
/// of `out` and gives its length: the refusals of the old reading, 1, 2, 3, 19, 20,
/// 21 and 5, then 6.
pub fn upgrade(old: &[u8], out: &mut [u8]) -> Result<usize, Refusal> {
    let file = reading(old).map_err(|fault| fault.number)?.bytes();
    let lent = out.get_mut(..file.len()).ok_or(6_u32)?;
    lent.copy_from_slice(&file);
    Ok(file.len())
}

/// The slot that holds the offending link where the old reading is refused with 19,
/// 20 or 21, and 0 for every other file.
pub fn upgrade_slot(old: &[u8]) -> usize {
    reading(old).err().map_or(0, |fault| fault.slot)
}

/// The fields of a file of the old form that is legal.
fn reading(file: &[u8]) -> Result<Fields, Fault> {
    if file.len() < 8 {
        return Err(1.into());
    }
    let [inputs, outputs, gates, head] = [0, 2, 4, 6].map(|place| u16_at(file, place));
    if !(1..=512).contains(&inputs) || !(1..=256).contains(&outputs) || gates > MOST_GATES {
        return Err(2.into());
    }
    if file.len() != 8 + 2 * outputs + 8 * gates {
        return Err(1.into());
    }
    let (outputs, records) = file[8..].split_at(2 * outputs);
    let fields = Fields {
        inputs,
        outputs: outputs.chunks(2).map(|wire| u16_at(wire, 0)).collect(),
        head,
        records: records.chunks(8).map(record).collect(),
    };
    fields.circuit()?;
    Ok(fields)
}

/// The kind and the zero are taken as one number, which is a kind exactly if the
/// second byte is zero.
fn record(bytes: &[u8]) -> Record {
    let [kind, a, b, next] = [0, 2, 4, 6].map(|place| u16_at(bytes, place));
    Record { kind, a, b, next }
}

#[cfg(test)]
mod tests {
    use super::*;
    use crate::examples;

    /// K and `FOUR` in the old form.
    const K: [u8; 18] = [2, 0, 1, 0, 1, 0, 1, 0, 2, 0, 2, 0, 0, 0, 1, 0, 0, 0];
    const FOUR: [u8; 46] = [
        3, 0, 3, 0, 4, 0, 2, 0, 6, 0, 5, 0, 2, 0, // head and outputs
        2, 0, 2, 0, 5, 0, 4, 0, // slot 1
        3, 0, 0, 0, 0, 0, 3, 0, // slot 2
        2, 0, 1, 0, 4, 0, 1, 0, // slot 3
        1, 0, 3, 0, 1, 0, 0, 0, // slot 4
    ];

    /// K with another byte at `place`.
    fn k_with(place: usize, byte: u8) -> Vec<u8> {
        let mut file = K.to_vec();
        file[place] = byte;
        file
    }

    #[test]
    fn the_same_circuit() {
        for (old, new) in [(&K[..], &examples::K[..]), (&FOUR, &examples::FOUR)] {
            let mut out = vec![0x55; new.len() + 3];
            assert_eq!(upgrade(old, &mut out), Ok(new.len()));
            assert_eq!(out, [new, &[0x55; 3]].concat());
            assert_eq!(upgrade(old, &mut out[..new.len()]), Ok(new.len()));
            let mut short = vec![0x55; new.len() - 1];
            assert_eq!(upgrade(old, &mut short), Err(6));
            assert_eq!(short, vec![0x55; new.len() - 1]);
        }
    }

    #[test]
    fn refused_as_it_was() {
        let many = [&[1, 0, 1, 0, 1, 16, 1, 0, 0, 0][..], &[0; 8 * 4097]].concat();
        let known = [
            (vec![], 1, 0),
            (K[..7].to_vec(), 1, 0),
            (K[..17].to_vec(), 1, 0),
            (k_with(0, 0), 2, 0),
            (k_with(1, 3), 2, 0),
            (many, 2, 0),
            (k_with(10, 4), 3, 0),
            (k_with(11, 1), 3, 0),
            (k_with(10, 3), 3, 0),
            (k_with(6, 2), 19, 0),
            (k_with(16, 2), 19, 1),
            (k_with(6, 0), 20, 0),
            (k_with(16, 1), 21, 1),
            (k_with(14, 2), 5, 0),
            (k_with(8, 3), 5, 0),
            (examples::K.to_vec(), 2, 0),
        ];
        for (file, number, slot) in known {
            let mut out = [0x55; 99];
            let found = (upgrade(&file, &mut out), upgrade_slot(&file));
            assert_eq!(found, (Err(number), slot), "{file:?}");
            assert_eq!(out, [0x55; 99]);
            assert_eq!(upgrade(&file, &mut []), Err(number), "before 6");
        }
        assert_eq!(upgrade_slot(&K), 0);
    }

    /// 4,096 gates were the most, and are converted.
    #[test]
    fn the_most_gates() {
        let mut old = vec![1, 0, 1, 0, 0, 16, 1, 0, 0, 0];
        for slot in 1..=4096_u16 {
            old.extend([3, 0, 0, 0, 0, 0]);
            old.extend(((slot + 1) % 4097).to_le_bytes());
        }
        let mut out = vec![0; 20 + 16 * 4096];
        assert_eq!(upgrade(&old, &mut out), Ok(20 + 16 * 4096));
        let sizes = crate::circuit::read(&out).expect("a legal circuit");
        assert_eq!([sizes.inputs, sizes.gates, sizes.ands], [1, 4096, 0]);
    }
}
