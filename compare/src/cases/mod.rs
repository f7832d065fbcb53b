//! Where the texts, packets, splits and trees, proofs to be trimmed and sets to be certified come from: fixed cases, cases at the limits, random proofs for programs, changes of them, and noise.

pub mod bytes;
pub mod changes;
pub mod costs;
pub mod deep;
pub mod deletions;
pub mod ends;
pub mod fixed;
pub mod guided;
pub mod halves;
pub mod limits;
pub mod long;
pub mod loops;
pub mod merges;
pub mod moves;
pub mod noise;
pub mod packets;
pub mod refutations;
pub mod sums;
pub mod trees;
pub mod trims;
pub mod weights;
