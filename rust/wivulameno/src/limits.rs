//! The limits, as `include/wivulameno.h` has them. What is beyond one is refused.

use crate::circuit::Sizes;
use crate::proof::{longest_proof, Counts};

/// A circuit has 1 to so many inputs.
pub const MAX_INPUTS: u32 = 512;

/// A circuit has 1 to so many outputs.
pub const MAX_OUTPUTS: u32 = 256;

/// A circuit has 0 to so many gates.
pub const MAX_GATES: u32 = 100_000;

/// The bytes of the longest circuit.
pub const MAX_CIRCUIT: usize = 16 + 4 * MAX_OUTPUTS as usize + 16 * MAX_GATES as usize;

/// A circuit of [`small`](crate::circuit::small) has 1 to so many inputs.
pub const MAX_SMALL_INPUTS: u32 = 2;

/// A circuit of [`small`](crate::circuit::small) has 0 to so many gates.
pub const MAX_SMALL_GATES: u32 = 2;

/// The bytes of the longest circuit of [`small`](crate::circuit::small).
pub const MAX_SMALL_CIRCUIT: usize = 16 + 4 + 16 * MAX_SMALL_GATES as usize;

/// A list for [`one_of`](crate::circuit::one_of) has 1 to so many outputs.
pub const MAX_LISTED: usize = 16;

/// The bytes of a work buffer for every circuit.
pub const MAX_WORK: usize = Sizes {
    inputs: MAX_INPUTS,
    outputs: MAX_OUTPUTS,
    gates: MAX_GATES,
    ands: MAX_GATES,
}
.work_len();

/// No call of the library takes more of the stack, in bytes.
pub const MAX_STACK: usize = 96 * 1024;

/// A run has 2, 4, 8, 16, 32 or so many parties.
pub const MAX_PARTIES: u32 = 64;

/// A proof has 2 to so many instances.
pub const MAX_INSTANCES: u32 = 512;

/// The number of an instance, in a tree of seeds, is 0 to this.
pub const MAX_INSTANCE_NUMBER: u32 = 65_535;

/// A message has 0 to so many bytes.
pub const MAX_MESSAGE: usize = 4096;

/// The bytes of a proof before its opened nodes and its instances.
pub const PROOF_HEADER_LEN: usize = 70;

/// Room for every proof.
pub const MAX_PROOF: usize = {
    let sizes = Sizes {
        inputs: MAX_INPUTS,
        outputs: MAX_OUTPUTS,
        gates: MAX_GATES,
        ands: MAX_GATES,
    };
    let counts = Counts {
        m: MAX_INSTANCES,
        tau: MAX_INSTANCES - 1,
        n: MAX_PARTIES,
    };
    longest_proof(sizes, counts).unwrap()
};

/// A [`SharedChecker`](crate::proof::SharedChecker) has callers 0 to this, less 1.
pub const MAX_CALLERS: usize = 16;

/// A call to a [`SharedChecker`](crate::proof::SharedChecker) names a quota of 1 to so
/// many instances.
pub const MAX_QUOTA: u32 = 512;

/// The bytes of the state of a [`SharedChecker`](crate::proof::SharedChecker).
pub const SHARED_STATE: usize = 7537;

/// The bytes of the work buffer that a [`SharedChecker`](crate::proof::SharedChecker) asks
/// for: enough for every circuit.
pub const SHARED_WORK: usize = MAX_WORK;

/// The bytes of a root, of a master and of a leaf.
pub const ROOT_LEN: usize = 16;

/// The bytes of a salt.
pub const SALT_LEN: usize = 32;

/// The bytes of a SHA3-256 digest.
pub const DIGEST_LEN: usize = 32;

/// A shelf page has 1 to so many slots.
pub const MAX_SLOTS: u16 = 255;

/// So many draws a shelf counts; the next one is refused with 18.
pub const MAX_DRAWS: u32 = u32::MAX;
