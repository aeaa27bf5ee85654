//! How long calls of the entry take.
use crate::entry;
use corrections::frame::MAX_FRAME;
use corrections::generate::hash;
use corrections::generate::special::padded;
use corrections::list::List;
use corrections::random::Rng;
use corrections::reading::{MOST_FRAMES, WORKSPACE, answer};
use corrections::write::{Node, counted, field, finish, long, plain, record, string};
use std::time::{Duration, Instant};

/// How often a call is timed; the least counts.
const PASSES: usize = 7;
/// How long a pass takes at least.
const PASS: Duration = Duration::from_millis(60);

/// A name and a list.
type Row = (String, List);

pub fn times() -> bool {
    println!("{:<76}{:>14}{:>18}", "", "ns for a call", "frame by frame");
    let mut rows = vec![("no frames".to_string(), List::default())];
    rows.push((format!("1 finish of {} bytes", usual(0, 0).len()), List::of(&[usual(0, 0)])));
    rows.extend(usual_rows(20));
    rows.extend(usual_rows(MOST_FRAMES));
    rows.extend(long_rows());
    let mut right = true;
    for (name, list) in rows {
        let alone: Vec<List> = list.frames().map(|frame| List::of(&[frame.unwrap()])).collect();
        right &= is_right(&list);
        let (whole, alone) = (nanoseconds(&[list]), nanoseconds(&alone));
        println!("{name:<76}{whole:>14.0}{alone:>18.0}");
    }
    right
}

/// Whether the entry names the frames that it must.
fn is_right(list: &List) -> bool {
    let (mut list, mut result, mut workspace) = (list.clone(), [0; MOST_FRAMES], vec![0; WORKSPACE]);
    let given = call(&mut list, &mut result, &mut workspace);
    let want = answer(&list).unwrap();
    let same = given == want.len() as i32 && result[..want.len()] == want;
    if !same {
        println!("the answer to this list differs: {given}");
    }
    same
}

fn call(list: &mut List, result: &mut [u8], workspace: &mut [u8]) -> i32 {
    let (input, ends) = (&mut list.input, &mut list.ends);
    unsafe {
        entry::current(
            (input.as_mut_ptr(), input.len()),
            (ends.as_mut_ptr(), ends.len()),
            (result.as_mut_ptr(), result.len()),
            (workspace.as_mut_ptr(), workspace.len()),
        )
    }
}

/// Nanoseconds for a call on each of these lists, together. The workspace is what the call before left.
fn nanoseconds(lists: &[List]) -> f64 {
    let (mut lists, mut result, mut workspace) = (lists.to_vec(), [0; MOST_FRAMES], vec![0; WORKSPACE]);
    let mut best = f64::INFINITY;
    for _ in 0..PASSES {
        let (mut rounds, start) = (0, Instant::now());
        while start.elapsed() < PASS {
            for list in &mut lists {
                std::hint::black_box(call(list, &mut result, &mut workspace));
            }
            rounds += 1;
        }
        best = best.min(start.elapsed().as_nanos() as f64 / rounds as f64);
    }
    if lists.is_empty() { 0.0 } else { best }
}

/// A finish of about 100 bytes.
fn usual(sail: usize, seq: i64) -> Node {
    record(&[
        field("sail", string(format!("GBR {sail:04}"))),
        field("skipper", string("A. Skipper")),
        field("time", plain(0x13, &(1_700_000_000_000 + seq).to_be_bytes())),
        field("seq", long(seq)),
        field("places", counted(0x06, &[7; 12])),
    ])
}

/// So many usual finishes, with sails of three sorts.
fn usual_rows(count: usize) -> Vec<Row> {
    let list = |sails: usize| List::of(&(0..count).map(|i| usual(i % sails, i as i64)).collect::<Vec<_>>());
    let sorts = [("each sail its own", count), ("each sail twice", count.div_ceil(2)), ("all one sail", 1)];
    let bytes = usual(0, 0).len();
    sorts.map(|(sort, sails)| (format!("{count} finishes of {bytes} bytes, {sort}"), list(sails))).to_vec()
}

/// A frame of the greatest length with this sail.
fn longest(sail: &[u8], seq: usize) -> Node {
    padded(vec![field("sail", string(sail)), field("seq", long(seq as i64))], MAX_FRAME)
}

/// As many frames as there can be, of the greatest length, with sails of five sorts.
fn long_rows() -> Vec<Row> {
    let len = MAX_FRAME - finish("", 0).len();
    let common: Vec<u8> = (0..len).map(|i| b'a' + (i % 26) as u8).collect();
    let numbered = |at: usize, i: usize| {
        let mut sail = common.clone();
        sail[at..at + 3].copy_from_slice(format!("{i:03}").as_bytes());
        sail
    };
    let alike = hash::alike(&mut Rng::new(1), MOST_FRAMES, len, 0);
    vec![
        long_row("differ at the front", |i| numbered(0, i)),
        long_row("differ at the end", |i| numbered(len - 3, i)),
        // the shortest field that can fill a frame has 6 bytes
        long_row("of other lengths", |i| common[..len - 6 - i].to_vec()),
        long_row("all equal", |_| common.clone()),
        long_row("of equal hashes, differ at the front", |i| alike[i].clone()),
    ]
}

fn long_row(sort: &str, sail: impl Fn(usize) -> Vec<u8>) -> Row {
    let frames: Vec<Node> = (0..MOST_FRAMES).map(|i| longest(&sail(i), i)).collect();
    (format!("{MOST_FRAMES} frames of {MAX_FRAME} bytes, sails {sort}"), List::of(&frames))
}
