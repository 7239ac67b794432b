//! Calls of challenge by both implementations: answers and every lent byte are
//! compared.

use crate::guarded::Guarded;
use crate::random::Random;

/// One call. The counts are M, tau and n.
#[derive(Clone, Debug)]
pub struct Challenge {
    pub counts: [u32; 3],
    pub h_star: Vec<u8>,
    pub salt: Vec<u8>,
    pub circuit_digest: Vec<u8>,
    pub y: Vec<u8>,
    pub message: Vec<u8>,
    pub out_len: usize,
}

/// The call by the functions of one module, whose types have the same names.
macro_rules! challenge_by {
    ($module:path, $counts:expr, $inputs:expr, $out:expr) => {{
        use $module as seeds;
        let [m, tau, n] = $counts;
        let [h_star, salt, circuit_digest, y, message] = $inputs;
        let input = seeds::ChallengeInput {
            h_star,
            salt,
            circuit_digest,
            y,
            message,
        };
        seeds::challenge(m, tau, n, input, $out)
    }};
}

impl Challenge {
    /// Any bytes of these lengths: h*, the salt, the circuit's digest, y, the message;
    /// and the length of the output.
    pub fn of_lengths(random: &mut Random, counts: [u32; 3], lens: [usize; 6]) -> Challenge {
        Challenge {
            counts,
            h_star: random.bytes(lens[0]),
            salt: random.bytes(lens[1]),
            circuit_digest: random.bytes(lens[2]),
            y: random.bytes(lens[3]),
            message: random.bytes(lens[4]),
            out_len: lens[5],
        }
    }

    /// A good call, for good counts and lengths of y and of the message.
    pub fn any(random: &mut Random, counts: [u32; 3], y: usize, message: usize) -> Challenge {
        let lens = [32, 32, 32, y, message, 3 * counts[1] as usize];
        Challenge::of_lengths(random, counts, lens)
    }

    pub fn inputs(&self) -> [&[u8]; 5] {
        let Challenge {
            h_star,
            salt,
            circuit_digest,
            y,
            message,
            ..
        } = self;
        [h_star, salt, circuit_digest, y, message]
    }

    /// The library's answer, with these buffers lent.
    pub fn with(&self, inputs: [&[u8]; 5], out: &mut [u8]) -> Result<(), wivulameno::Refusal> {
        challenge_by!(wivulameno::seeds, self.counts, inputs, out)
    }

    /// The reference's answer, without guards.
    pub fn by_reference(&self, out: &mut [u8]) -> Result<(), u32> {
        challenge_by!(reference::seeds, self.counts, self.inputs(), out)
    }

    /// For the message of a failure.
    pub fn shown(&self) -> String {
        format!(
            "challenge, counts {:?}, inputs of {:?} bytes, output of {}",
            self.counts,
            self.inputs().map(<[u8]>::len),
            self.out_len
        )
    }
}

/// Makes the call by both; gives what was filled, or the refusal. What is lent
/// must be the same afterwards, and as before if it was not to be written.
pub fn compare_challenge(random: &mut Random, call: &Challenge) -> Result<Vec<u8>, u32> {
    let inputs = Guarded::holding_each(random, call.inputs());
    let lent = inputs.each_ref().map(Guarded::get);
    let shift = random.below(8);
    let mut out = Guarded::new(random, shift, call.out_len);
    let mut expected = out.get().to_vec();
    let second = challenge_by!(reference::seeds, call.counts, lent, &mut expected);

    let ours = call.with(lent, out.lent());
    let shown = call.shown();
    assert_eq!(ours.map_err(|refusal| refusal.number()), second, "{shown}");
    assert!(out.get() == expected, "the output's bytes, {shown}");
    assert!(out.outside_unchanged(), "beside the output, {shown}");
    assert!(second.is_ok() || out.unchanged(), "refused, {shown}");
    assert!(inputs.iter().all(Guarded::unchanged), "inputs, {shown}");
    second.map(|()| expected)
}
