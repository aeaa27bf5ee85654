//! `text::hash`, by which the entry keeps names in tables: to make names that fall together there.

/// What `text::hash` multiplies by.
pub const FACTOR: u32 = 2_654_435_769;

/// The hash of a text of four bytes or more.
fn hash(t: &[u8]) -> u32 {
    let word = |i: usize| u32::from_be_bytes(t[i..i + 4].try_into().unwrap());
    let last = t.len() - 4;
    let x =
        (0..last).step_by(4).chain([last]).fold(0u32, |x, i| x.wrapping_mul(FACTOR).wrapping_add(word(i)));
    let product = x as u64 * FACTOR as u64;
    (product + (product >> 32)) as u32
}

/// The row of a name in the table of an entry's names.
pub fn row(name: &str) -> u32 {
    hash(name.as_bytes()) % 512
}
