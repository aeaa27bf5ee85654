//! Sails of one length and one hash that differ: an implementation that tells sails apart by such a
//! hash must still compare them.
use crate::random::Rng;

/// What a word is multiplied by, modulo 2^32: the hash of a text is 0, and for each 4-byte word of it,
/// high byte first, the hash times this plus the word; the last 4 bytes are a word of their own.
const FACTOR: u32 = 2_654_435_769;
/// How much of each text differs.
pub const DIFFERING: usize = 8;

/// The hash of a text of 4 bytes or more.
fn hash(text: &[u8]) -> u32 {
    let last = text.len() - 4;
    let places = (0..last).step_by(4).chain([last]);
    places.fold(0, |h: u32, at| h.wrapping_mul(FACTOR).wrapping_add(word(&text[at..at + 4])))
}

fn word(bytes: &[u8]) -> u32 {
    u32::from_be_bytes(bytes.try_into().unwrap())
}

/// As many texts of a hash as asked for, all different, all `len` bytes long, that differ in the 8
/// bytes from `at` on. `at` is a multiple of 4, and 12 bytes or more are behind it.
pub fn alike(r: &mut Rng, count: usize, len: usize, at: usize) -> Vec<Vec<u8>> {
    assert!(at.is_multiple_of(4) && at + DIFFERING + 4 <= len);
    let common: Vec<u8> = (0..len).map(|_| letter(r)).collect();
    // two words add FACTOR times the first and the second to the hash
    let sum = word(&common[at..at + 4]).wrapping_mul(FACTOR).wrapping_add(word(&common[at + 4..at + 8]));
    let mut texts = vec![common.clone()];
    while texts.len() < count {
        let first = [(); 4].map(|_| letter(r));
        let second = sum.wrapping_sub(word(&first).wrapping_mul(FACTOR)).to_be_bytes();
        let mut text = common.clone();
        text[at..at + 4].copy_from_slice(&first);
        text[at + 4..at + 8].copy_from_slice(&second);
        if second.is_ascii() && !texts.contains(&text) {
            assert_eq!(hash(&text), hash(&common));
            texts.push(text);
        }
    }
    texts
}

fn letter(r: &mut Rng) -> u8 {
    b' ' + r.below(95) as u8
}
