//! A head office: both shared checkers, and one buffer with the inputs of all callers.

use crate::proofs::Check;
use crate::random::Random;
use crate::shared::{append, finished, proved, Both, WORK};
use reference::shared::Places;

/// Both checkers, and the buffer in which all inputs lie.
pub struct Office {
    pub random: Random,
    pub both: Both,
    pub buffer: Vec<u8>,
}

impl Office {
    pub fn new(seed: u64) -> Office {
        let mut random = Random::new(seed);
        Office {
            both: Both::new(&mut random),
            buffer: random.bytes(13),
            random,
        }
    }

    /// Puts a check into the buffer.
    pub fn put(&mut self, check: &Check) -> Places {
        append(&mut self.buffer, check)
    }

    /// A good proof of so many instances, in the buffer.
    pub fn proof(&mut self, m: u32) -> Places {
        let tau = self.random.from_to(1, m as usize - 1) as u32;
        let n = self.random.pick(&[2, 4]);
        let check = proved(&mut self.random, [5, 3, 9], [m, tau, n]);
        self.put(&check)
    }

    pub fn enter(&mut self, caller: u32, places: Places) -> Result<(), u32> {
        let Office {
            random,
            both,
            buffer,
        } = self;
        both.enter(random, caller, places, buffer)
    }

    /// The services of a call, and who was finished in it.
    pub fn check(&mut self, quota: u32) -> Told {
        let Office {
            random,
            both,
            buffer,
        } = self;
        let answer = both.check(random, quota, buffer)?;
        Ok((answer.services, finished(&answer)))
    }

    /// What the places hold in the buffer.
    pub fn held(&self, places: Places) -> Check {
        let at = |[start, len]: [u64; 2]| self.buffer[start as usize..][..len as usize].to_vec();
        let [circuit, y, message, proof] = places.map(at);
        Check {
            circuit,
            y,
            message,
            proof,
            work_len: WORK,
        }
    }

    /// The bytes of one of the four places.
    pub fn at(&mut self, [start, len]: [u64; 2]) -> &mut [u8] {
        &mut self.buffer[start as usize..][..len as usize]
    }
}

/// The services of a call, and who was finished in it with 0 or a number.
pub type Told = Result<(u32, Vec<(usize, u32)>), u32>;

/// No verdict in a call of so many services.
pub fn none(services: u32) -> Told {
    Ok((services, vec![]))
}

/// These verdicts in a call of so many services.
pub fn some(services: u32, finished: &[(usize, u32)]) -> Told {
    Ok((services, finished.to_vec()))
}
