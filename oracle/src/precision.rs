//! The digits that a length in bytes has room for, by whole numbers.
use num_bigint::BigUint;
use std::sync::LazyLock;

/// The longest of the table; longer ones admit any precision.
const LONGEST: usize = 128;

static TABLE: LazyLock<Vec<usize>> = LazyLock::new(|| (0..=LONGEST).map(largest).collect());

/// The scope's `max_prec_for_len`.
pub fn for_length(length: usize) -> usize {
    TABLE.get(length).copied().unwrap_or(usize::MAX)
}

/// The fewest bytes that have room for so many digits.
pub fn needed(precision: u32) -> usize {
    (0..=LONGEST).find(|l| for_length(*l) >= precision as usize).unwrap_or(LONGEST + 1)
}

/// The largest p with 10^p at most 2^(8·length − 1) − 1; 0 for no bytes.
fn largest(length: usize) -> usize {
    if length == 0 {
        return 0;
    }
    let top = (BigUint::from(1u8) << (8 * length - 1)) - 1u8;
    (1u32..).take_while(|p| BigUint::from(10u8).pow(*p) <= top).count()
}
