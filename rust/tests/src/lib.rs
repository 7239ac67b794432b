//! What the tests share: random bytes, known answers, guarded buffers, and
//! files, pages and calls to try.

pub mod bristol;
pub mod builders;
pub mod calls;
pub mod challenges;
pub mod circuits;
pub mod covers;
pub mod cut_disk;
pub mod guarded;
pub mod office;
pub mod old;
pub mod one_of;
pub mod outcomes;
pub mod paged;
pub mod pages;
pub mod partners;
pub mod proofs;
pub mod random;
pub mod shared;
pub mod specs;
pub mod stack;
pub mod tables;
pub mod vectors;
pub mod works;
