//! Values of every kind, and texts.
use crate::random::Rng;
use crate::write::*;

/// Names of fields that Q-7 doesn't look at.
const OTHER_NAMES: [&str; 9] = ["boat", "skipper", "time", "leg", "note", "class", "", "sailor", "seq2"];
/// Keys of maps, in the order of their bytes.
const KEYS: [&str; 16] = [
    "",
    "A",
    "B",
    "a",
    "aa",
    "ab",
    "abc",
    "b",
    "ba",
    "sail",
    "seq",
    "z",
    "~",
    "\u{e9}",
    "\u{65e5}",
    "\u{10348}",
];

/// Pieces of texts, those at the ends of each length of a character among them.
const PIECES: [&str; 16] = [
    "a",
    "Z",
    "7",
    " ",
    "\0",
    "\u{7f}",
    "\u{80}",
    "\u{e9}",
    "\u{7ff}",
    "\u{800}",
    "\u{d7ff}",
    "\u{e000}",
    "\u{feff}",
    "\u{ffff}",
    "\u{10000}",
    "\u{10ffff}",
];

/// Bytes that are no UTF-8, each for a reason of its own.
pub const NO_TEXTS: [&[u8]; 20] = [
    b"\x80",
    b"\xbf",
    b"\xc0\x80",
    b"\xc1\xbf",
    b"\xc2",
    b"\xc2\x41",
    b"\xc2\xc0",
    b"\xdf\x7f",
    b"\xe0\x9f\xbf",
    b"\xe2\x82",
    b"\xe2\x28\xa1",
    b"\xed\xa0\x80",
    b"\xed\xbf\xbf",
    b"\xef\xbf",
    b"\xf0\x8f\xbf\xbf",
    b"\xf0\x9f\x98",
    b"\xf4\x90\x80\x80",
    b"\xf5\x80\x80\x80",
    b"\xfe",
    b"\xff",
];

pub fn text(r: &mut Rng) -> Vec<u8> {
    let pieces = r.pick(&[0, 1, 1, 2, 3, 5, 9]);
    let text: String = (0..pieces).map(|_| r.pick(&PIECES)).collect();
    text.into_bytes()
}

/// Text that is wrong somewhere.
pub fn no_text(r: &mut Rng) -> Vec<u8> {
    [text(r), r.pick(&NO_TEXTS).to_vec(), text(r)].concat()
}

pub fn other_name(r: &mut Rng) -> Vec<u8> {
    r.pick(&OTHER_NAMES).as_bytes().to_vec()
}

/// A field that Q-7 doesn't look at, mostly a small one.
pub fn other_field(r: &mut Rng) -> Field {
    let name = other_name(r);
    let node = if r.percent(80) { leaf(r) } else { value(r, 3) };
    (name, node)
}

/// How many bytes the content of a kind has that always has as many.
fn fixed_len(kind: u8) -> Option<usize> {
    match kind {
        NULL => Some(0),
        BOOLEAN => Some(1),
        0x02 | 0x04 | DATE | 0x11 => Some(4),
        0x03 | 0x05 | 0x12..=0x18 => Some(8),
        UUID => Some(16),
        DURATION => Some(12),
        _ => None,
    }
}

/// A node without children, of this kind.
pub fn leaf_of(r: &mut Rng, kind: u8) -> Node {
    match kind {
        BOOLEAN => plain(BOOLEAN, &[r.below(2) as u8]),
        STRING => string(text(r)),
        ENUM => symbol(r.below(4) as u32, &text(r)),
        _ => match fixed_len(kind) {
            Some(len) => plain(kind, &r.bytes(len)),
            None => {
                let len = r.pick(&[0, 1, 2, 4, 8, 11]);
                counted(kind, &r.bytes(len))
            }
        },
    }
}

/// The kinds of nodes without children.
pub const LEAVES: [u8; 22] = [
    0x00, 0x01, 0x02, 0x03, 0x04, 0x05, 0x06, 0x07, 0x0c, 0x0d, 0x0e, 0x0f, 0x10, 0x11, 0x12, 0x13, 0x14,
    0x15, 0x16, 0x17, 0x18, 0x19,
];

pub fn leaf(r: &mut Rng) -> Node {
    let kind = r.pick(&LEAVES);
    leaf_of(r, kind)
}

/// A value of any kind and so many levels at most.
pub fn value(r: &mut Rng, levels: usize) -> Node {
    if levels <= 1 || r.percent(40) {
        return leaf(r);
    }
    let count = r.below(4);
    match r.below(4) {
        0 => array(&(0..count).map(|_| value(r, levels - 1)).collect::<Vec<_>>()),
        1 => map(&entries(r, levels - 1)),
        2 => union(r.below(3) as u32, &value(r, levels - 1)),
        _ => record(&(0..count).map(|_| (other_name(r), value(r, levels - 1))).collect::<Vec<_>>()),
    }
}

/// Entries of a map whose keys rise.
pub fn entries(r: &mut Rng, levels: usize) -> Vec<Field> {
    let share = r.pick(&[5, 15, 30]);
    let keys: Vec<&str> = KEYS.iter().filter(|_| r.percent(share)).copied().collect();
    keys.into_iter().map(|key| field(key, value(r, levels))).collect()
}

/// Entries of a map whose keys mostly don't rise by their bytes.
pub fn unruly_entries(r: &mut Rng) -> Vec<Field> {
    let mut entries = entries(r, 2);
    while entries.len() < 2 {
        entries = self::entries(r, 2);
    }
    let at = r.below(entries.len() - 1);
    match r.below(7) {
        0 => entries.swap(at, at + 1),
        1 => entries.insert(at, entries[at].clone()),
        2 => r.shuffle(&mut entries),
        // shorter ones first
        3 => entries.sort_by_key(|(key, _)| key.len()),
        // bytes from 80 on first
        4 => entries.sort_by_key(|(key, _)| key.iter().map(|b| *b as i8).collect::<Vec<_>>()),
        // from the last byte on
        5 => entries.sort_by_key(|(key, _)| key.iter().rev().copied().collect::<Vec<_>>()),
        _ => {}
    }
    entries
}

/// A value around this one, one level more.
pub fn around(r: &mut Rng, inner: Node) -> Node {
    match r.below(4) {
        0 => array(&[inner]),
        1 => map(&[field("k", inner)]),
        2 => union(r.below(2) as u32, &inner),
        _ => record(&[field("sail", inner)]),
    }
}

/// A value around this one, so many levels more.
pub fn far_around(r: &mut Rng, inner: Node, levels: usize) -> Node {
    (0..levels).fold(inner, |inner, _| around(r, inner))
}
