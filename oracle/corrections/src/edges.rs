//! Lists made by hand, the same ones each time: each rule of by itself.
use crate::generate::hash;
use crate::list::List;
use crate::random::Rng;
use crate::write::*;

/// What some lists are about, and they themselves.
pub type Section = (&'static str, Vec<List>);

pub fn sections() -> Vec<Section> {
    let lists_of = |(what, lists): (&'static str, Vec<Vec<Node>>)| {
        (what, lists.iter().map(|frames| List::of(frames)).collect())
    };
    let mut sections: Vec<Section> = framed().into_iter().map(lists_of).collect();
    sections.push(("Ends past the input, below their start, equal ones; bytes behind the last end", ends()));
    sections.push(("More than 100 frames; only two have bytes", many_ends()));
    sections
}

/// Lists whose frames lie one behind the other, and nothing else.
fn framed() -> Vec<(&'static str, Vec<Vec<Node>>)> {
    vec![
        ("No frames, one, and corrections: the greatest number, the later of equal ones", corrections()),
        ("The same finishes in every order: the same ones are named", orders()),
        ("Numbers have a sign and 64 bits", numbers()),
        ("Sails are equal where their bytes are", sails()),
        (
            "Longer sails, some of one length and one hash (oracle/corrections/src/generate/hash.rs)",
            long_sails(),
        ),
        ("Other fields; names that stand several times, of which the last counts", names()),
        ("Names that are near, and fields that are missing", near_and_missing()),
        ("A finish inside a field is no finish of the list", inside()),
        ("No Union is taken off, and a Map is no record", wrapped()),
        ("Frames that are no records", no_records()),
        ("Every other kind under seq", seq_kinds()),
        ("Other kinds under sail", sail_kinds()),
        ("Bytes that are no frame, at each place", no_frames()),
        ("Texts that are none, and bytes that need not be", texts()),
        ("Keys of maps, and depth", keys_and_depth()),
    ]
}

/// A list of finishes of a sail and a number each.
fn list(finishes: &[(&str, i64)]) -> Vec<Node> {
    finishes.iter().map(|(sail, seq)| finish(sail, *seq)).collect()
}

/// Lists of one frame each.
fn alone(frames: Vec<Node>) -> Vec<Vec<Node>> {
    frames.into_iter().map(|frame| vec![frame]).collect()
}

/// A finish with one field more, at this place.
fn with_field(at: usize, name: impl AsRef<[u8]>, node: Node) -> Node {
    let mut fields = vec![field("sail", string("K 7")), field("seq", long(5))];
    fields.insert(at, (name.as_ref().to_vec(), node));
    record(&fields)
}

fn with_sail(node: Node) -> Node {
    record(&[field("sail", node), field("seq", long(5))])
}

fn with_seq(node: Node) -> Node {
    record(&[field("sail", string("K 7")), field("seq", node)])
}

fn corrections() -> Vec<Vec<Node>> {
    let mut lists: Vec<Vec<Node>> = [
        &[][..],
        &[("K 7", 1)],
        &[("K 7", 1), ("K 7", 2)],
        &[("K 7", 2), ("K 7", 1)],
        &[("K 7", 1), ("K 7", 1)],
        &[("K 7", 1), ("K 8", 1)],
        &[("K 7", 1), ("K 8", 1), ("K 7", 2)],
        &[("K 7", 1), ("K 8", 5), ("K 7", 9), ("K 8", 2)],
        &[("K 8", 5), ("K 7", 9), ("K 8", 6), ("K 7", 9), ("K 9", 0)],
        &[("K 7", 3), ("K 7", 1), ("K 7", 3), ("K 7", 2), ("K 7", 3)],
        &[("K 7", 1), ("K 7", 3), ("K 7", 2), ("K 7", 3)],
    ]
    .map(list)
    .to_vec();
    // as many sails as a short line holds, each corrected by turns
    lists.push((0..30).map(|i| finish([b'a' + (i % 15) as u8], i64::from(i * 7 % 11))).collect());
    lists.push((0..30).map(|i| finish([b'A' + i as u8], i64::from(-i))).collect());
    lists
}

fn orders() -> Vec<Vec<Node>> {
    let three = [("K 7", 1), ("K 7", 2), ("K 8", 3)];
    let orders = [[0, 1, 2], [0, 2, 1], [1, 0, 2], [1, 2, 0], [2, 0, 1], [2, 1, 0]];
    orders.map(|order| list(&order.map(|place: usize| three[place]))).to_vec()
}

fn numbers() -> Vec<Vec<Node>> {
    let pairs = [
        (-1, 0),
        (i64::MIN, i64::MAX),
        (i64::MAX, i64::MIN),
        (i64::MIN, i64::MIN),
        (i64::MAX, i64::MAX - 1),
        (i64::MIN, i64::MIN + 1),
        (-2, -1),
        (1 << 32, 1),
        (1, (1 << 32) + 1),
        (0x8000_0000, 0x7fff_ffff),
        (1 << 53, (1 << 53) + 1),
        (255, 256),
    ];
    pairs.map(|(first, second)| list(&[("K 7", first), ("K 7", second)])).to_vec()
}

fn sails() -> Vec<Vec<Node>> {
    let lists = [
        &[("", 1), ("", 2)][..],
        &[("", 1), ("\0", 2), ("\0\0", 3), ("", 0)],
        &[("K 7", 1), ("k 7", 2), ("K 7 ", 3), (" K 7", 4), ("K\u{a0}7", 5), ("K 07", 6)],
        &[("\u{c5}land", 1), ("A\u{30a}land", 2), ("\u{c5}land", 3), ("\u{212b}land", 4)],
        &[("a", 1), ("aa", 1), ("aaa", 1), ("aaaa", 1), ("aaaaa", 1), ("aaaa", 2)],
        &[("\u{10ffff}", 1), ("\u{ffff}", 1), ("\u{10ffff}", 2), ("\u{feff}", 1)],
        &[("abcd", 1), ("bbcd", 2), ("abce", 3), ("aacd", 4), ("abcd", 5)],
    ];
    lists.map(list).to_vec()
}

fn long_sails() -> Vec<Vec<Node>> {
    let common = "abcdefghijklmnopqrstuvwxyz".repeat(4);
    let (front, end) = (format!("b{}", &common[1..]), format!("{}a", &common[..common.len() - 1]));
    let long = vec![finish(&common, 1), finish(front, 2), finish(end, 3), finish(&common, 4)];
    let alike = hash::alike(&mut Rng::new(1), 3, 12, 0);
    let hashed = [0, 1, 2, 1, 0].map(|i: usize| finish(&alike[i], i as i64)).to_vec();
    let longer = hash::alike(&mut Rng::new(2), 4, 41, 20);
    let hashed_too = [3, 2, 1, 0, 1, 3].map(|i: usize| finish(&longer[i], i as i64)).to_vec();
    vec![long, hashed, hashed_too]
}

fn names() -> Vec<Vec<Node>> {
    let (sail, seq) = (|t: &str| field("sail", string(t)), |n| field("seq", long(n)));
    let other = |name| field(name, array(&[long(9), string("K 9")]));
    let repeated = vec![sail("K 9"), seq(1), seq(2), sail("K 7")];
    let first_of_any_kind = vec![field("seq", int(9)), field("sail", long(1)), sail("K 7"), seq(3)];
    let last_is_int = vec![sail("K 7"), seq(3), field("seq", int(3))];
    let last_is_bytes = vec![sail("K 7"), seq(3), field("sail", counted(BYTES, b"K 7"))];
    let last_is_union = vec![sail("K 7"), seq(3), field("seq", union(0, &long(3)))];
    let unruly_first =
        vec![field("sail", map(&[field("b", int(1)), field("a", int(1))])), sail("K 7"), seq(3)];
    let lists = vec![
        vec![record(&[other("boat"), sail("K 7"), other("leg"), seq(1), other("note")]), finish("K 7", 0)],
        vec![record(&[seq(1), sail("K 7")]), finish("K 7", 2), record(&[seq(3), other(""), sail("K 7")])],
        vec![finish("K 7", 1), record(&repeated), finish("K 9", 1)],
        vec![finish("K 7", 1), record(&first_of_any_kind)],
        vec![record(&[seq(9), seq(8), sail("K 7"), seq(1)]), finish("K 7", 2)],
    ];
    let refused =
        alone([last_is_int, last_is_bytes, last_is_union, unruly_first].map(|f| record(&f)).to_vec());
    [lists, refused].concat()
}

fn near_and_missing() -> Vec<Vec<Node>> {
    let mut lists = vec![];
    for name in ["Sail", "sai", "sails", "sail\0"] {
        lists.push(vec![record(&[field(name, string("K 7")), field("seq", long(1))])]);
        lists.push(vec![with_field(2, name, string("K 9")), finish("K 7", 6)]);
    }
    for name in ["SEQ", "se", "seqs", "qes"] {
        lists.push(vec![record(&[field("sail", string("K 7")), field(name, long(1))])]);
        lists.push(vec![with_field(2, name, long(9)), finish("K 7", 6)]);
    }
    lists.push(vec![record(&[])]);
    lists.push(vec![finish("K 7", 1), record(&[field("sail", string("K 7"))])]);
    lists.push(vec![record(&[field("seq", long(1))]), finish("K 7", 1)]);
    lists
}

fn inside() -> Vec<Vec<Node>> {
    let inner = finish("K 9", 9);
    let held = || field("finish", array(&[union(1, &inner)]));
    vec![
        vec![with_field(2, "finish", inner.clone()), finish("K 7", 6)],
        vec![with_field(0, "", inner.clone()), with_field(1, "finish", map(&[field("sail", inner.clone())]))],
        vec![record(&[held(), field("seq", long(1))])],
        vec![record(&[held(), field("sail", string("K 7"))])],
        vec![record(&[field("finish", inner.clone())])],
        vec![array(&[inner])],
    ]
}

fn wrapped() -> Vec<Vec<Node>> {
    let (sail, seq) = (string("K 7"), long(5));
    alone(vec![
        union(0, &finish("K 7", 5)),
        with_sail(union(0, &sail)),
        with_sail(union(1, &sail)),
        with_seq(union(0, &seq)),
        with_seq(union(1, &seq)),
        map(&[field("sail", sail.clone()), field("seq", seq.clone())]),
        with_field(1, "boat", union(0, &seq)),
    ])
}

/// One node of each kind without children, by kind.
fn leaves() -> Vec<Node> {
    let mut leaves = vec![plain(NULL, &[]), plain(BOOLEAN, &[1]), int(5), long(5), plain(0x04, &[0; 4])];
    leaves.extend([plain(DOUBLE, &[0; 8]), counted(BYTES, b"K 7"), string("K 7"), symbol(0, b"K 7")]);
    leaves.extend([counted(FIXED, b"K 7"), counted(DECIMAL, &[5]), plain(UUID, &[b'7'; 16])]);
    leaves.extend([DATE, 0x11].map(|kind| plain(kind, &5i32.to_be_bytes())));
    leaves.extend((0x12..=0x18).map(|kind| plain(kind, &5i64.to_be_bytes())));
    leaves.push(plain(DURATION, &[0; 12]));
    leaves
}

fn no_records() -> Vec<Vec<Node>> {
    let some = [NULL, BOOLEAN, INT, LONG, BYTES, STRING, ENUM, UUID];
    alone(leaves().into_iter().filter(|leaf| some.contains(&leaf[0])).collect())
}

fn seq_kinds() -> Vec<Vec<Node>> {
    let mut nodes: Vec<Node> = leaves().into_iter().filter(|leaf| leaf[0] != LONG).collect();
    nodes.extend([array(&[long(5)]), map(&[field("seq", long(5))]), record(&[field("seq", long(5))])]);
    alone(nodes.into_iter().map(with_seq).collect())
}

fn sail_kinds() -> Vec<Vec<Node>> {
    let some = [NULL, LONG, BYTES, ENUM, FIXED, DECIMAL, UUID];
    let mut nodes: Vec<Node> = leaves().into_iter().filter(|leaf| some.contains(&leaf[0])).collect();
    nodes.extend([array(&[string("K 7")]), record(&[field("sail", string("K 7"))])]);
    alone(nodes.into_iter().map(with_sail).collect())
}

fn no_frames() -> Vec<Vec<Node>> {
    let good = || finish("K 7", 1);
    let cut = good()[..good().len() - 1].to_vec();
    let over = [good(), vec![0]].concat();
    let mut more = good();
    more[2] = 3;
    let mut fewer = good();
    fewer[2] = 1;
    let mut lists = vec![vec![good(), cut, good()], vec![over, good()], vec![good(), vec![]], vec![vec![]]];
    lists.extend([vec![good(), more], vec![fewer], vec![vec![RECORD]], vec![vec![RECORD, 0]]]);
    lists.extend(alone(vec![
        with_field(0, "note", vec![0x1a]),
        with_field(1, "note", vec![0xff]),
        with_field(2, "note", plain(BOOLEAN, &[2])),
    ]));
    lists
}

fn texts() -> Vec<Vec<Node>> {
    let surrogate = b"\xed\xa0\x80";
    alone(vec![
        with_sail(string(b"\xff")),
        with_sail(string(b"K\xc0\x80")),
        with_sail(string(surrogate)),
        with_sail(string(b"\xf4\x90\x80\x80")),
        with_sail(string(b"K 7\xe2\x82")),
        with_field(0, surrogate, long(1)),
        with_field(1, "note", string(b"\x80")),
        with_field(2, "note", symbol(0, b"\xc2")),
        with_field(0, "sail", string(b"\xff")),
        with_field(2, "note", counted(BYTES, b"\xff\x80")),
    ])
}

/// Arrays in arrays, so many of them.
fn arrays(count: usize) -> Node {
    (0..count).fold(plain(NULL, &[]), |inner, _| array(&[inner]))
}

fn keys_and_depth() -> Vec<Vec<Node>> {
    let keys = |keys: &[&str]| map(&keys.iter().map(|key| field(key, int(1))).collect::<Vec<_>>());
    let mut frames = vec![];
    for of in [&["", "a", "aa", "b", "\u{e9}"][..], &["a", "a"], &["b", "a"], &["b", "aa"], &["\u{e9}", "a"]]
    {
        frames.push(with_field(1, "note", keys(of)));
    }
    frames.push(with_field(2, "note", array(&[union(0, &keys(&["seq", "sail"]))])));
    // the record is at depth 1, what its field holds at 2, and what is in so many arrays as much deeper
    frames.extend([14, 15].map(|count| with_field(2, "note", arrays(count))));
    alone(frames)
}

/// Two finishes of one sail, and where frames are said to end in them.
fn placed(ends: &[usize]) -> List {
    let input = [finish("K 7", 1), finish("K 7", 2)].concat();
    assert_eq!(input.len(), BOTH);
    List { input, ends: ends.to_vec() }
}

/// Where the first of them ends, and the second.
const ONE: usize = 29;
const BOTH: usize = 2 * ONE;

fn ends() -> Vec<List> {
    // in the last two one byte of the end is right, or both are in the wrong order
    let past = [&[BOTH + 1][..], &[BOTH + 1, BOTH], &[ONE, 0xffff], &[ONE + 0x100, BOTH], &[ONE << 8, BOTH]];
    // in the last two what comes then is again where a frame ends
    let below = [&[ONE, ONE - 1][..], &[ONE, 0, ONE], &[ONE, BOTH, ONE, BOTH]];
    // no bytes are left for a frame
    let equal = [&[0, ONE][..], &[ONE, ONE, BOTH], &[ONE, BOTH, BOTH]];
    // beside the right place, and two frames that run together
    let beside = [&[ONE - 1, BOTH][..], &[BOTH]];
    let all = [&past[..], &below, &equal, &beside].concat();
    let without_input = List { input: vec![], ends: vec![1] };
    [all.into_iter().map(placed).collect(), vec![without_input], behind()].concat()
}

/// What is behind the last end is not looked at.
fn behind() -> Vec<List> {
    let mut lists = [&[][..], &[ONE]].map(placed).to_vec();
    for bytes in [&[0xff; 30][..], &finish("K 8", 9)] {
        let mut list = placed(&[ONE, BOTH]);
        list.input.extend_from_slice(bytes);
        lists.push(list);
    }
    lists
}

/// More frames than a line holds good ones: those behind the first two have no bytes of the input.
fn many_ends() -> Vec<List> {
    let and_then = |count: usize, end: usize| placed(&[vec![ONE, BOTH], vec![end; count]].concat());
    vec![and_then(99, BOTH), and_then(253, BOTH + 1)]
}
