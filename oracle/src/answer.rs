//! Answers, whoever gives them.
use crate::frame;
use std::collections::BTreeSet;

/// What the scope asks for, with a result buffer of 65,535 bytes.
#[derive(Clone, Debug)]
pub enum Answer {
    Accepted(Vec<u8>),
    Refused(Refusal),
    /// The crate panicked. None is known.
    Panic(String),
}

/// A refusal: the number that Hulmbax must give, and what the crate gave.
#[derive(Clone, Debug)]
pub struct Refusal {
    /// Where a map fails, that of its first failing entry in key order.
    pub number: u8,
    /// Where a map fails, those of all its failing entries: the crate's map has no order.
    pub admitted: BTreeSet<u8>,
    /// The crate's in this run, one of those that are admitted.
    pub by_crate: u8,
}

pub fn refused(n: u8) -> Answer {
    Answer::Refused(Refusal { number: n, admitted: BTreeSet::from([n]), by_crate: n })
}

impl Answer {
    /// The line of program `resolve`.
    pub fn line(&self) -> String {
        match self {
            Answer::Accepted(b) => format!("+ {}", frame::hex(b)),
            Answer::Refused(r) => format!("- {}", r.number),
            Answer::Panic(m) => format!("! {m}"),
        }
    }

    /// The number or `+`, for counting.
    pub fn sort(&self) -> String {
        match self {
            Answer::Accepted(_) => "+".into(),
            Answer::Refused(r) => r.number.to_string(),
            Answer::Panic(_) => "!".into(),
        }
    }

    /// Whether a map's failing entries have more than one number, so that the crate may give another.
    pub fn several(&self) -> bool {
        matches!(self, Answer::Refused(r) if r.admitted.len() > 1)
    }

    /// Whether the crate gave another number, which had to be admitted.
    pub fn crate_differs(&self) -> bool {
        matches!(self, Answer::Refused(r) if r.by_crate != r.number)
    }
}
