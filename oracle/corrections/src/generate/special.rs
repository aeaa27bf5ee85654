//! Frames that are finishes in an unusual way, or not quite finishes.
use super::finishes::{Draft, among_others, own_fields, usual};
use super::values::{self, leaf_of, value};
use crate::frame::MAX_FRAME;
use crate::random::Rng;
use crate::write::*;

/// A finish whose own two fields hold these nodes.
fn finish_of(r: &mut Rng, sail: Node, seq: Node) -> Node {
    let mut own = vec![field("sail", sail), field("seq", seq)];
    r.shuffle(&mut own);
    among_others(r, own)
}

/// A Union around the record, the sail or the number, or around nothing that counts.
pub fn union_around(r: &mut Rng, draft: &Draft) -> Node {
    let (sail, seq, index) = (string(&draft.sail), long(draft.seq), r.below(2) as u32);
    match r.below(5) {
        0 => union(index, &usual(r, draft)),
        1 => finish_of(r, union(index, &sail), seq),
        2 => finish_of(r, sail, union(index, &seq)),
        3 => finish_of(r, union(index, &sail), union(index, &seq)),
        _ => {
            let mut own = own_fields(r, draft);
            own.insert(r.below(3), field("boat", union(index, &sail)));
            record(&own)
        }
    }
}

/// What is no record, among it a Map of a finish's fields.
pub fn no_record(r: &mut Rng, draft: &Draft) -> Node {
    let entries = [field("sail", string(&draft.sail)), field("seq", long(draft.seq))];
    match r.below(6) {
        0..=2 => map(&entries),
        3 => array(&[record(&entries)]),
        4 => array(&entries.map(|(_, node)| node)),
        _ => value(r, 3),
    }
}

/// A number of another kind than Long, at times one whose content could be a Long's.
pub fn other_seq(r: &mut Rng, draft: &Draft) -> Node {
    let eight = draft.seq.to_be_bytes();
    let seq = match r.below(8) {
        0 | 1 => int(draft.seq as i32),
        2 => plain(r.within(0x12, 0x18) as u8, &eight),
        3 => plain(r.pick(&[DOUBLE, TIMESTAMP_MILLIS]), &eight),
        4 => counted(r.pick(&[BYTES, FIXED, DECIMAL]), &eight),
        5 => string(draft.seq.to_string()),
        6 => array(&[long(draft.seq)]),
        _ => value(r, 2),
    };
    finish_of(r, string(&draft.sail), seq)
}

/// A sail of another kind than String, at times one whose content could be a String's.
pub fn other_sail(r: &mut Rng, draft: &Draft) -> Node {
    let sail = match r.below(7) {
        0 | 1 => counted(BYTES, &draft.sail),
        2 => counted(r.pick(&[FIXED, DECIMAL]), &draft.sail),
        3 => symbol(r.below(3) as u32, &draft.sail),
        4 => array(&[string(&draft.sail)]),
        5 => leaf_of(r, UUID),
        _ => value(r, 2),
    };
    finish_of(r, sail, long(draft.seq))
}

/// A record that lacks one of the two, or both.
pub fn missing(r: &mut Rng, draft: &Draft) -> Node {
    let mut own = own_fields(r, draft);
    own.remove(r.below(2));
    if r.percent(25) {
        own.clear();
    }
    among_others(r, own)
}

/// Names that stand several times. The last decides: it is right in some of these and wrong in others.
pub fn repeated(r: &mut Rng, draft: &Draft) -> Node {
    let mut own = vec![];
    for _ in 0..r.within(1, 4) {
        own.push(any_of_own(r, draft));
    }
    if r.percent(70) {
        own.extend(own_fields(r, draft));
    }
    if r.percent(30) {
        own.push(any_of_own(r, draft));
    }
    among_others(r, own)
}

/// A sail or a number, perhaps another one or of another kind.
fn any_of_own(r: &mut Rng, draft: &Draft) -> Field {
    let node = match r.below(8) {
        0 => int(draft.seq as i32),
        1 => long(draft.seq.wrapping_add(r.below(3) as i64 - 1)),
        2 => counted(BYTES, &draft.sail),
        3 => string(values::text(r)),
        4 => string(&draft.sail),
        5 => long(r.bits() as i64),
        6 => plain(NULL, &[]),
        _ => value(r, 3),
    };
    field(r.pick(&["sail", "seq"]), node)
}

/// Names that are near the two; in some of these one of the two is missing.
pub fn near_names(r: &mut Rng, draft: &Draft) -> Node {
    const NEAR: [&str; 22] = [
        "Sail",
        "SAIL",
        "saiL",
        "sai",
        "ail",
        "sails",
        "sail ",
        " sail",
        "sail\0",
        "liAs",
        "lias",
        "s\u{e1}il",
        "Seq",
        "SEQ",
        "se",
        "eq",
        "seqs",
        "seq ",
        "\0seq",
        "qes",
        "sequence",
        "sailseq",
    ];
    let mut own = own_fields(r, draft);
    if r.percent(35) {
        let at = r.below(2);
        own[at].0 = r.pick(&NEAR).as_bytes().to_vec();
    }
    for _ in 0..r.within(1, 3) {
        let other = if r.percent(50) { string(values::text(r)) } else { long(r.bits() as i64) };
        own.insert(r.below(own.len() + 1), field(r.pick(&NEAR), other));
    }
    record(&own)
}

/// A finish inside another field; the record has the two itself, or lacks one of them.
pub fn nested(r: &mut Rng, draft: &Draft) -> Node {
    let inside = Draft { sail: values::text(r), seq: r.bits() as i64 };
    let fields = own_fields(r, &inside);
    let inner = if r.percent(70) { record(&fields) } else { map(&[field("sail", record(&fields))]) };
    let levels = r.below(3);
    let held = field(r.pick(&["finish", "before", "sailing", ""]), values::far_around(r, inner, levels));
    let mut own = own_fields(r, draft);
    if r.percent(30) {
        own.remove(r.below(2));
    }
    own.insert(r.below(own.len() + 1), held);
    record(&own)
}

/// Values as deep as a frame may go, and deeper.
pub fn deep(r: &mut Rng, draft: &Draft) -> Node {
    let depth = r.pick(&[10, 14, 15, 16, 16, 16, 17, 17, 18, 33, 100]);
    let innermost = r.pick(&[&[NULL][..], &[ARRAY, 0, 0], &[RECORD, 0, 0], &[MAP, 0, 0], &[BOOLEAN, 1]]);
    let held = values::far_around(r, innermost.to_vec(), depth - 2);
    let mut own = own_fields(r, draft);
    // under a name of the two it doesn't count, since it isn't the last
    own.insert(0, field(r.pick(&["note", "sail", "seq"]), held));
    among_others(r, own)
}

/// Maps whose keys don't rise, at any depth.
pub fn unruly_map(r: &mut Rng, draft: &Draft) -> Node {
    let levels = r.below(4);
    let entries = values::unruly_entries(r);
    let held = values::far_around(r, map(&entries), levels);
    let mut own = own_fields(r, draft);
    let at = r.below(3);
    own.insert(at, field(if at == 0 { r.pick(&["note", "sail"]) } else { "note" }, held));
    record(&own)
}

/// Bytes that are no text, in each place where a text stands; and where none does, which is harmless.
pub fn wrong_text(r: &mut Rng, draft: &Draft) -> Node {
    let wrong = if r.percent(65) { values::no_text(r) } else { values::text(r) };
    let mut own = own_fields(r, draft);
    let at = r.below(3);
    match r.below(8) {
        0 => return finish_of(r, string(wrong), long(draft.seq)),
        1 => own.insert(at, (wrong, long(1))),
        2 => own.insert(at, field("note", string(wrong))),
        3 => own.insert(at, field("note", symbol(0, &wrong))),
        4 => own.insert(at, field("note", map(&[(wrong, long(1))]))),
        5 => own.insert(at, field("note", array(&[record(&[(wrong, string("x"))])]))),
        6 => own.insert(0, field("sail", string(wrong))),
        _ => own.insert(at, field("note", counted(r.pick(&[BYTES, FIXED, DECIMAL]), &wrong))),
    }
    record(&own)
}

/// A wrong Boolean, a kind that there isn't, or bytes behind the record.
pub fn wrong_byte(r: &mut Rng, draft: &Draft) -> Node {
    let mut own = own_fields(r, draft);
    let at = r.below(3);
    let note = match r.below(4) {
        0 => plain(BOOLEAN, &[r.within(2, 255) as u8]),
        1 => vec![r.within(0x1a, 0xff) as u8],
        2 => plain(r.pick(&[0x1a, 0x80, 0x83, 0x87, 0xff]), &draft.seq.to_be_bytes()),
        _ => {
            let len = r.within(1, 9);
            return [usual(r, draft), r.bytes(len)].concat();
        }
    };
    own.insert(at, field("note", note));
    record(&own)
}

/// Frames of about the greatest length, and past it.
pub fn long_frame(r: &mut Rng, draft: &Draft) -> Node {
    let own = own_fields(r, draft);
    // the longest sail takes all of the frame
    let sail_len = r.pick(&[20_000, 60_000, MAX_FRAME - finish("", 0).len()]);
    match r.below(7) {
        0 | 1 => finish(filled(r, &draft.sail, sail_len), draft.seq),
        // a finish, where 65,536 are taken off the length
        2 => [record(&own), vec![0xa7; MAX_FRAME + 1]].concat(),
        3 => padded(own, r.pick(&[MAX_FRAME + 2, 80_000, 131_072, 140_000])),
        _ => padded(own, r.within(MAX_FRAME - 1, MAX_FRAME + 1)),
    }
}

/// A text of so many bytes that begins or ends with this one.
fn filled(r: &mut Rng, text: &[u8], len: usize) -> Vec<u8> {
    let filling = vec![b'-'; len - text.len()];
    if r.percent(50) { [text, &filling].concat() } else { [&filling, text].concat() }
}

/// A record of these fields that gets to this length by others.
pub fn padded(mut own: Vec<Field>, len: usize) -> Node {
    // a field of a name of one letter and Bytes of a length
    const EMPTY: usize = 6;
    let mut left = len - record(&own).len();
    while left > 0 {
        let taken = if left > 60_000 { 40_000 } else { left };
        own.push(field("f", counted(BYTES, &vec![0xa7; taken - EMPTY])));
        left -= taken;
    }
    record(&own)
}
