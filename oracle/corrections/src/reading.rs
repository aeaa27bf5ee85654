//! as they are written: of the finishes of each sail the one with the greatest `seq` is
//! current, of equal ones the latest.
use crate::frame::{self, Value};
use crate::list::List;

/// How many frames a list may have.
pub const MOST_FRAMES: usize = 256;
/// The bytes that the workspace must have.
pub const WORKSPACE: usize = 65_536;

/// The places of the current frames, or the number of the refusal.
pub type Answer = Result<Vec<u8>, u8>;

/// What Q-7 looks at in a frame.
#[derive(Debug, PartialEq)]
pub struct Finish<'a> {
    pub sail: &'a str,
    pub seq: i64,
}

/// The answer with these lengths of result buffer and workspace, where `answer` is the one with
/// enough of both.
pub fn with_lengths(answer: &Answer, result: usize, workspace: usize) -> Answer {
    match answer {
        _ if workspace < WORKSPACE => Err(1),
        Ok(places) if places.len() > result => Err(18),
        _ => answer.clone(),
    }
}

/// The answer to a list, with enough of both buffers.
pub fn answer(list: &List) -> Answer {
    finishes(list).map(|finishes| current(&finishes))
}

/// The finishes of a list, or 23 or 24.
pub fn finishes(list: &List) -> Result<Vec<Finish<'_>>, u8> {
    if list.ends.len() > MOST_FRAMES {
        return Err(23);
    }
    let frames: Option<Vec<&[u8]>> = list.frames().collect();
    let finishes = frames.ok_or(24)?.into_iter().map(finish);
    finishes.collect::<Option<_>>().ok_or(24)
}

/// The sail and the number of a frame that is a record with both.
fn finish(frame: &[u8]) -> Option<Finish<'_>> {
    let Some(Value::Record(fields)) = frame::read(frame) else { return None };
    let last = |name: &str| fields.iter().rev().find(|field| field.0 == name).map(|field| &field.1);
    match (last("sail")?, last("seq")?) {
        (Value::String(sail), Value::Long(seq)) => Some(Finish { sail, seq: *seq }),
        _ => None,
    }
}

/// The place of the current finish of each sail, in the order in which the sails first appear.
pub fn current(finishes: &[Finish]) -> Vec<u8> {
    let mut sails: Vec<&str> = vec![];
    for finish in finishes {
        if !sails.contains(&finish.sail) {
            sails.push(finish.sail);
        }
    }
    sails.into_iter().map(|sail| current_of(sail, finishes)).collect()
}

/// The place of the latest finish with the greatest number of this sail, which has one.
fn current_of(sail: &str, finishes: &[Finish]) -> u8 {
    let greatest = finishes.iter().filter(|f| f.sail == sail).map(|f| f.seq).max();
    let place = finishes.iter().rposition(|f| f.sail == sail && Some(f.seq) == greatest);
    u8::try_from(place.unwrap()).unwrap()
}

/// How the numbers of the finishes that are not the first of their sail stand to that of the one that
/// was current before. With a greater one and an equal one they are current from there on.
#[derive(Default, Debug, PartialEq)]
pub struct Corrections {
    pub greater: usize,
    pub equal: usize,
    pub lesser: usize,
}

/// What a list's finishes are to each other, for the summary.
pub fn corrections(finishes: &[Finish]) -> Corrections {
    let mut sum = Corrections::default();
    for (place, finish) in finishes.iter().enumerate() {
        let before = finishes[..place].iter().filter(|f| f.sail == finish.sail).map(|f| f.seq).max();
        match before.map(|seq| finish.seq.cmp(&seq)) {
            Some(std::cmp::Ordering::Greater) => sum.greater += 1,
            Some(std::cmp::Ordering::Equal) => sum.equal += 1,
            Some(std::cmp::Ordering::Less) => sum.lesser += 1,
            None => {}
        }
    }
    sum
}

/// Whether a finish is current because it is the later one: one of its sail and number stands before it.
pub fn is_tied(finishes: &[Finish], places: &[u8]) -> bool {
    let is_later = |place: usize| finishes[..place].contains(&finishes[place]);
    places.iter().any(|place| is_later(usize::from(*place)))
}
