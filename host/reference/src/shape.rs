//! "Shape of a blob": what a length alone decides.

use crate::bytes::{FAN_OUT, LEAF_BYTES};

/// "Length L has n leaves: 1 if L = 0, else L / 48 rounded up."
pub fn leaf_count(length: u64) -> u64 {
    rounded_up(length, LEAF_BYTES as u64).max(1)
}

/// The quotient "rounded up".
fn rounded_up(number: u64, by: u64) -> u64 {
    number / by + u64::from(number % by != 0)
}

/// "The block total of n is 1 if n = 1, and otherwise n plus the block total
/// of n / 12 rounded up." (No length has 0 leaves; 0 is treated as 1.)
pub fn block_total(leaves: u64) -> u64 {
    if leaves <= 1 {
        return 1;
    }
    leaves + block_total(rounded_up(leaves, FAN_OUT as u64))
}

/// How many of a blob's bytes lie in this leaf, counted from 0: 48 in all
/// but the last, which has the rest. The leaf is one of the length's leaves.
pub fn leaf_share(length: u64, leaf: u64) -> u8 {
    let rest = length.saturating_sub(leaf * LEAF_BYTES as u64);
    rest.min(LEAF_BYTES as u64) as u8
}
