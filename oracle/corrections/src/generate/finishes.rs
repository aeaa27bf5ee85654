//! Finishes before they are frames: sails and numbers, and the record that a crew would send.
use super::hash;
use super::values;
use crate::random::Rng;
use crate::write::{Field, Node, field, long, record, string};

/// A sail and its number.
#[derive(Clone)]
pub struct Draft {
    pub sail: Vec<u8>,
    pub seq: i64,
}

/// Numbers at the ends of ranges, and where a narrower type would go wrong.
const EDGES: [i64; 20] = [
    i64::MIN,
    i64::MIN + 1,
    -(1 << 53) - 1,
    -(1 << 53),
    -(1 << 32),
    i32::MIN as i64 - 1,
    i32::MIN as i64,
    -256,
    -1,
    0,
    1,
    127,
    128,
    i32::MAX as i64,
    i32::MAX as i64 + 1,
    u32::MAX as i64,
    1 << 32,
    1 << 53,
    (1 << 53) + 1,
    i64::MAX,
];

/// So many numbers, drawn in one way.
pub fn seqs(r: &mut Rng, count: usize) -> Vec<i64> {
    let (way, base, few) = (r.below(9), r.pick(&EDGES), r.within(1, 4));
    let number = |r: &mut Rng, place: usize| match way {
        0 => r.below(few) as i64,
        1 => place as i64,
        2 => -(place as i64),
        3 => r.pick(&EDGES),
        4 => r.bits() as i64,
        // close together, also across either end of the range
        5 => base.saturating_add(r.below(3) as i64 - 1),
        // equal low halves
        6 => (r.below(few) as i64 - 1) << 32 | 7,
        // equal high halves
        7 => 1 << 40 | (r.bits() >> 32) as i64,
        _ => 1_700_000_000_000 + 1000 * r.below(50) as i64,
    };
    (0..count).map(|place| number(r, place)).collect()
}

/// A sail as crews write it.
pub fn usual_sail(r: &mut Rng) -> Vec<u8> {
    let country = r.pick(&["GBR", "NED", "FRA", "NZL", "K", "GER"]);
    format!("{country} {}", r.below(10_000)).into_bytes()
}

/// So many usual sails, no two of them equal.
pub fn usual_sails(r: &mut Rng, count: usize) -> Vec<Vec<u8>> {
    let first = r.below(9000);
    (0..count).map(|i| format!("GBR {}", first + i).into_bytes()).collect()
}

/// So many sails, some of them perhaps equal, that are hard to tell apart.
pub fn unusual_sails(r: &mut Rng, count: usize) -> Vec<Vec<u8>> {
    match r.below(6) {
        // of a tiny alphabet, the empty one among them
        0 => (0..count).map(|_| letters(r)).collect(),
        // of letters, marks and signs of all lengths
        1 => (0..count).map(|_| values::text(r)).collect(),
        // each a piece of the same text
        2 => {
            let whole = usual_sail(r).repeat(r.within(1, 12));
            (0..count).map(|_| whole[..r.below(whole.len() + 1)].to_vec()).collect()
        }
        3 => one_byte_apart(r, count, 24),
        4 => {
            let len = r.within(200, 1500);
            one_byte_apart(r, count, len)
        }
        // spaces, zero bytes and capitals count
        _ => (0..count).map(|_| r.pick(&ALMOST_EQUAL).as_bytes().to_vec()).collect(),
    }
}

const ALMOST_EQUAL: [&str; 12] = [
    "GBR 1",
    "gbr 1",
    "GBR 1 ",
    " GBR 1",
    "GBR  1",
    "GBR 1\0",
    "GBR\x001",
    "GBR 01",
    "GBR\u{a0}1",
    "GBR 1\n",
    "\u{c5}1",
    "A\u{30a}1",
];

fn letters(r: &mut Rng) -> Vec<u8> {
    let len = r.pick(&[0, 1, 2, 3, 4, 5, 7, 8, 9]);
    (0..len).map(|_| r.pick(b"ab")).collect()
}

/// Texts of one length of which each differs from the first in one byte at most: the first byte, the
/// last or any.
fn one_byte_apart(r: &mut Rng, count: usize, len: usize) -> Vec<Vec<u8>> {
    let common: Vec<u8> = (0..len).map(|_| r.pick(b"abcdef")).collect();
    let any = r.below(len);
    let at = r.pick(&[Some(0), Some(len - 1), Some(any), None]);
    (0..count)
        .map(|_| {
            let mut text = common.clone();
            let at = at.unwrap_or_else(|| r.below(len));
            text[at] = b'a' + r.below(26) as u8;
            text
        })
        .collect()
}

/// So many sails of one length and one hash.
pub fn alike_sails(r: &mut Rng, count: usize) -> Vec<Vec<u8>> {
    let at = 4 * r.pick(&[0, 0, 1, 5]);
    let len = at + hash::DIFFERING + 4 + r.below(40);
    hash::alike(r, count, len, at)
}

/// So many finishes with sails of this pool: each at any place, or all of them by turns.
pub fn drafts(r: &mut Rng, count: usize, pool: &[Vec<u8>]) -> Vec<Draft> {
    let by_turns = r.percent(40);
    let sail = |r: &mut Rng, place: usize| if by_turns { place % pool.len() } else { r.below(pool.len()) };
    let seqs = seqs(r, count);
    let drafts = seqs.into_iter().enumerate();
    drafts.map(|(place, seq)| Draft { sail: pool[sail(r, place)].clone(), seq }).collect()
}

/// So many finishes of a few usual sails.
pub fn usual_drafts(r: &mut Rng, count: usize) -> Vec<Draft> {
    let sails = r.within(1, 1 + count / 2);
    let pool = usual_sails(r, sails);
    drafts(r, count, &pool)
}

/// The two fields of a finish, in either order.
pub fn own_fields(r: &mut Rng, draft: &Draft) -> Vec<Field> {
    let mut own = vec![field("sail", string(&draft.sail)), field("seq", long(draft.seq))];
    if r.percent(40) {
        own.swap(0, 1);
    }
    own
}

/// A record of these fields, which keep their order, and some others before, between and behind them.
pub fn among_others(r: &mut Rng, mut own: Vec<Field>) -> Node {
    for _ in 0..r.pick(&[0, 0, 1, 1, 2, 3]) {
        let at = r.below(own.len() + 1);
        let other = values::other_field(r);
        own.insert(at, other);
    }
    record(&own)
}

/// A finish as a crew would send it.
pub fn usual(r: &mut Rng, draft: &Draft) -> Node {
    let own = own_fields(r, draft);
    among_others(r, own)
}
