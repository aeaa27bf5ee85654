//! Lists from a seed, in families.
mod damage;
pub mod finishes;
pub mod hash;
pub mod special;
mod values;

use crate::list::List;
use crate::random::Rng;
use crate::reading::MOST_FRAMES;
use crate::write::Node;
use finishes::{Draft, drafts, usual, usual_drafts};

/// A name, how many lists of 1,000 are of it, and how one is drawn.
pub struct Family {
    pub name: &'static str,
    pub share: usize,
    draw: fn(&mut Rng) -> List,
}

impl Family {
    pub fn draw(&self, r: &mut Rng) -> List {
        (self.draw)(r)
    }
}

const fn family(name: &'static str, share: usize, draw: fn(&mut Rng) -> List) -> Family {
    Family { name, share, draw }
}

pub const FAMILIES: [Family; 24] = [
    family("few sails", 110, few_sails),
    family("many sails", 70, many_sails),
    family("101 to 256 frames", 70, many_frames),
    family("more than 256 frames", 20, too_many_frames),
    family("numbers", 60, |r| of_pool(r, 12, finishes::usual_sails)),
    family("unusual sails", 70, |r| of_pool(r, 16, finishes::unusual_sails)),
    family("sails of equal hashes", 30, |r| of_pool(r, 12, finishes::alike_sails)),
    family("equal frames", 30, equal_frames),
    family("repeated names", 80, |r| with(r, special::repeated)),
    family("near names", 40, |r| with(r, special::near_names)),
    family("finishes inside", 50, |r| with(r, special::nested)),
    family("missing fields", 30, |r| with(r, special::missing)),
    family("no records", 30, |r| with(r, special::no_record)),
    family("Unions", 40, |r| with(r, special::union_around)),
    family("seq of other kinds", 40, |r| with(r, special::other_seq)),
    family("sail of other kinds", 40, |r| with(r, special::other_sail)),
    family("deep values", 40, |r| with(r, special::deep)),
    family("keys of maps", 40, |r| with(r, special::unruly_map)),
    family("texts", 33, |r| with(r, special::wrong_text)),
    family("wrong bytes", 10, |r| with(r, special::wrong_byte)),
    family("damaged frames", 100, damaged_frames),
    family("misplaced ends", 40, misplaced_ends),
    family("bytes behind the last end", 25, bytes_behind),
    family("long frames", 2, long_frames),
];

/// The next list, and the number of its family.
pub fn draw(r: &mut Rng) -> (usize, List) {
    let mut left = r.below(FAMILIES.iter().map(|family| family.share).sum());
    let mut number = 0;
    while left >= FAMILIES[number].share {
        left -= FAMILIES[number].share;
        number += 1;
    }
    (number, FAMILIES[number].draw(r))
}

/// How many frames a short list has.
fn short(r: &mut Rng) -> usize {
    let most = r.pick(&[3, 6, 12, 30]);
    r.below(most + 1)
}

/// These finishes as frames.
fn list_of(r: &mut Rng, drafts: &[Draft]) -> List {
    let frames: Vec<Node> = drafts.iter().map(|draft| usual(r, draft)).collect();
    List::of(&frames)
}

fn few_sails(r: &mut Rng) -> List {
    let (frames, sails) = (short(r), r.within(1, 4));
    let pool = finishes::usual_sails(r, sails);
    let drafts = drafts(r, frames, &pool);
    list_of(r, &drafts)
}

fn many_sails(r: &mut Rng) -> List {
    let frames = short(r);
    let pool = finishes::usual_sails(r, frames + 1);
    let drafts = drafts(r, frames, &pool);
    list_of(r, &drafts)
}

/// A long list; once in a while one of its frames is damaged.
fn many_frames(r: &mut Rng) -> List {
    let frames = if r.percent(30) { MOST_FRAMES } else { r.within(101, MOST_FRAMES) };
    let sails = r.pick(&[1, 2, 10, frames / 2, frames, frames]);
    let pool = match r.below(8) {
        0 => finishes::unusual_sails(r, sails),
        1 => finishes::alike_sails(r, sails),
        _ => finishes::usual_sails(r, sails),
    };
    let drafts = drafts(r, frames, &pool);
    let mut frames: Vec<Node> = drafts.iter().map(|draft| usual(r, draft)).collect();
    if r.percent(15) {
        let at = r.below(frames.len());
        let frame = std::mem::take(&mut frames[at]);
        frames[at] = damage::damaged(r, frame);
    }
    List::of(&frames)
}

/// More frames than a list may have, good ones or none at all; their ends may be misplaced.
fn too_many_frames(r: &mut Rng) -> List {
    let count = if r.percent(60) { MOST_FRAMES + 1 } else { r.pick(&[258, 259, 300, 511, 512, 513, 1000]) };
    let count = if r.percent(1) { r.pick(&[65_536, 65_537, 65_792]) } else { count };
    let frame = finishes::usual_drafts(r, 1).pop().map(|draft| usual(r, &draft)).unwrap();
    let frame = if r.percent(20) { vec![] } else { frame };
    let mut list = List::of(&vec![frame; count]);
    if r.percent(30) {
        damage::misplace(r, &mut list);
    }
    if r.percent(20) {
        list.input.truncate(r.pick(&[0, 1, 100]));
    }
    list.ends.resize(list.ends.len().max(MOST_FRAMES + 1), 0);
    list
}

/// A short list with sails of such a pool.
fn of_pool(r: &mut Rng, most: usize, pool: fn(&mut Rng, usize) -> Vec<Vec<u8>>) -> List {
    let (frames, sails) = (r.within(1, 2 * most), r.within(1, most));
    let pool = pool(r, sails);
    let drafts = drafts(r, frames, &pool);
    list_of(r, &drafts)
}

/// A list in which frames stand again, as they are.
fn equal_frames(r: &mut Rng) -> List {
    let count = r.within(1, 6);
    let drafts = usual_drafts(r, count);
    let some: Vec<Node> = drafts.iter().map(|draft| usual(r, draft)).collect();
    let again: Vec<&Node> = (0..r.within(2, 12)).map(|_| &some[r.below(some.len())]).collect();
    List::of(&again)
}

/// A short list in which one frame, some or all are made in a special way.
fn with(r: &mut Rng, special: fn(&mut Rng, &Draft) -> Node) -> List {
    let count = r.pick(&[1, 2, 3, 5, 8, 20]);
    let count = if r.percent(1) { r.within(101, MOST_FRAMES) } else { count };
    let drafts = usual_drafts(r, count);
    let share = r.pick(&[0, 0, 0, 30, 100]);
    let one = r.below(count);
    let frame = |(place, draft): (usize, &Draft)| {
        if place == one || r.percent(share) { special(r, draft) } else { usual(r, draft) }
    };
    let frames: Vec<Node> = drafts.iter().enumerate().map(frame).collect();
    List::of(&frames)
}

fn damaged_frames(r: &mut Rng) -> List {
    with(r, |r, draft| {
        let frame = usual(r, draft);
        damage::damaged(r, frame)
    })
}

fn misplaced_ends(r: &mut Rng) -> List {
    let count = r.within(1, 8);
    let drafts = usual_drafts(r, count);
    let mut list = list_of(r, &drafts);
    damage::misplace(r, &mut list);
    list
}

/// What lies behind the last end is not looked at, be it frames or none.
fn bytes_behind(r: &mut Rng) -> List {
    let count = r.within(1, 8);
    let drafts = usual_drafts(r, count);
    let mut list = list_of(r, &drafts);
    if r.percent(50) {
        list.ends.truncate(r.below(count));
    } else {
        let len = r.within(1, 300);
        list.input.extend(r.bytes(len));
    }
    list
}

fn long_frames(r: &mut Rng) -> List {
    let count = r.within(1, 3);
    let drafts = usual_drafts(r, count);
    let one = r.below(count);
    let frame = |(place, draft): (usize, &Draft)| {
        if place == one || r.percent(30) { special::long_frame(r, draft) } else { usual(r, draft) }
    };
    let frames: Vec<Node> = drafts.iter().enumerate().map(frame).collect();
    List::of(&frames)
}
