//! Which argument a refusal is about.

use crate::kind::Kind;
use crate::names::counted;
use wivulameno::limits::{MAX_INSTANCES, MAX_MESSAGE, SALT_LEN};
use wivulameno::proof::Counts;

/// Bits that were packed into bytes, one of them for each input or output of a
/// circuit.
pub struct Packed<'a> {
    /// What it is called in a message.
    pub name: String,
    pub bytes: &'a [u8],
    pub bits: u32,
    /// What it should be, and how it is made, if it can be something else.
    pub made: Option<&'static str>,
}

impl Packed<'_> {
    /// What is wrong with its length.
    pub fn length(&self) -> Option<String> {
        let asked = self.bits.div_ceil(8) as usize;
        let found = counted(self.bytes.len() as u64, "byte");
        let text = format!("{} has {found}, the circuit asks for {asked}", self.name);
        (self.bytes.len() != asked).then(|| text + &self.advice())
    }

    /// What a file is that is something else.
    fn advice(&self) -> String {
        let Some(made) = self.made else {
            return String::new();
        };
        match Kind::of(self.bytes) {
            Kind::Other => String::new(),
            kind => format!(": {}", kind.instead_of(made)),
        }
    }

    /// What is wrong with the bits behind the last one.
    pub fn unused(&self) -> Option<String> {
        let Packed {
            name, bytes, bits, ..
        } = self;
        let used = bits % 8;
        let unused = bytes.last().filter(|_| used != 0)? >> used;
        let text = format!("{name} has bits set behind its {bits}, in its last byte");
        let advice = self.made.map(|made| format!(": it may be no {made}"));
        (unused != 0).then(|| text + &advice.unwrap_or_default())
    }
}

/// What is wrong with a message's length.
pub fn message(name: &str, message: &[u8]) -> Option<String> {
    let len = message.len();
    (len > MAX_MESSAGE).then(|| format!("{name} has {len} bytes, at most {MAX_MESSAGE}"))
}

/// What is wrong with a salt's length.
pub fn salt(name: &str, salt: &[u8]) -> Option<String> {
    let found = counted(salt.len() as u64, "byte");
    (salt.len() != SALT_LEN).then(|| format!("{name} has {found}, a salt has {SALT_LEN}"))
}

/// What is wrong with the numbers of a proof.
pub fn counts(counts: Counts) -> Option<String> {
    let Counts { m, tau, n } = counts;
    if !(2..=MAX_INSTANCES).contains(&m) {
        return Some(format!("--instances {m}: 2 to {MAX_INSTANCES}"));
    }
    if !(1..m).contains(&tau) {
        return Some(format!("--chosen {tau}: 1 to {}", m - 1));
    }
    let legal = Counts { m: 2, tau: 1, n }.are_legal();
    (!legal).then(|| format!("--parties {n}: 2, 4, 8, 16, 32 or 64"))
}

#[cfg(test)]
mod tests {
    use super::*;

    #[test]
    fn lengths_and_unused_bits() {
        let packed = |bytes: &'static [u8], bits| Packed {
            name: "--y".into(),
            bytes,
            bits,
            made: None,
        };
        assert_eq!(packed(&[1, 2, 1], 17).length(), None);
        assert_eq!(packed(&[1, 2, 1], 17).unused(), None);
        let long = "--y has 3 bytes, the circuit asks for 2";
        assert_eq!(packed(&[1, 2, 1], 16).length().unwrap(), long);
        let set = "--y has bits set behind its 17, in its last byte";
        assert_eq!(packed(&[1, 2, 2], 17).unused().unwrap(), set);
        let made = Packed {
            made: Some("packed y: so it is packed"),
            ..packed(&[1, 2, 2], 17)
        };
        let advice = ": it may be no packed y: so it is packed";
        assert_eq!(made.unused().unwrap(), format!("{set}{advice}"));
        assert_eq!(packed(&[1, 0xff], 16).unused(), None);
        assert_eq!(packed(&[], 3).unused(), None);
    }

    #[test]
    fn lengths_of_a_salt() {
        assert_eq!(salt("--salt", &[0; 32]), None);
        let short = "--salt has 31 bytes, a salt has 32";
        assert_eq!(salt("--salt", &[0; 31]).unwrap(), short);
        let one = "--salt has 1 byte, a salt has 32";
        assert_eq!(salt("--salt", &[0]).unwrap(), one);
    }

    #[test]
    fn numbers_of_a_proof() {
        let cause = |m, tau, n| counts(Counts { m, tau, n });
        assert_eq!(cause(145, 66, 8), None);
        assert_eq!(cause(1, 1, 8).unwrap(), "--instances 1: 2 to 512");
        assert_eq!(cause(513, 1, 8).unwrap(), "--instances 513: 2 to 512");
        assert_eq!(cause(145, 145, 8).unwrap(), "--chosen 145: 1 to 144");
        assert_eq!(cause(145, 0, 8).unwrap(), "--chosen 0: 1 to 144");
        assert_eq!(cause(145, 66, 64), None);
        for n in [3, 48, 63, 65, 128] {
            let expected = format!("--parties {n}: 2, 4, 8, 16, 32 or 64");
            assert_eq!(cause(2, 1, n).unwrap(), expected);
        }
    }
}
