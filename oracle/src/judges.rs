//! Both judges on the same frames: the crate with the requests' rules for all of them, and the crate as
//! it is for those that no request touches.
use crate::answer::Answer;
use crate::frame;
use crate::generate::Case;
use crate::requests::{Filter, REQUESTS};
use crate::{patched, plain};
use std::collections::BTreeMap;
use std::fmt;

/// What the judges say of one value.
pub struct Judged {
    /// The answer that Hulmbax must give.
    pub patched: Answer,
    /// The answer of the crate as it is.
    pub plain: Answer,
    /// The requests that touch the value.
    pub touched: Vec<&'static str>,
}

impl Judged {
    /// The answers that hold for the value, each with whose it is.
    pub fn wanted(&self) -> Vec<(&'static str, &Answer)> {
        if !self.touched.is_empty() {
            vec![("the patched crate", &self.patched)]
        } else if self.agree() {
            vec![("both crates", &self.patched)]
        } else {
            vec![("the patched crate", &self.patched), ("the crate as it is", &self.plain)]
        }
    }

    /// Whether both crates give the same answer.
    pub fn agree(&self) -> bool {
        self.patched.line() == self.plain.line()
    }
}

pub fn of_case((schema, values): &Case) -> Vec<Judged> {
    let values: Vec<_> = values.iter().map(|v| Some(v.as_slice())).collect();
    of_frames(Some(schema), &values)
}

/// For each value of an input of program `resolve`.
pub fn of_input(input: &[u8]) -> Vec<Judged> {
    let frames: Vec<_> = frame::lines(input).into_iter().map(frame::unhex).collect();
    let Some((schema, values)) = frames.split_first() else { return vec![] };
    let values: Vec<_> = values.iter().map(|v| v.as_deref()).collect();
    of_frames(schema.as_deref(), &values)
}

fn of_frames(schema: Option<&[u8]>, values: &[Option<&[u8]>]) -> Vec<Judged> {
    let filter = Filter::new(schema);
    let answers = patched::watched(schema, values).into_iter().zip(plain::answers(schema, values));
    let one = |(value, ((patched, marked), plain)): (&Option<&[u8]>, _)| {
        let touched = filter.touching(*value, marked);
        Judged { patched, plain, touched }
    };
    values.iter().zip(answers).map(one).collect()
}

/// How many values differ from whose answers.
#[derive(Default)]
pub struct Differ(BTreeMap<&'static str, usize>);

impl Differ {
    /// How many there are with this one.
    pub fn add(&mut self, judge: &'static str) -> usize {
        *self.0.entry(judge).or_default() += 1;
        self.all()
    }

    pub fn all(&self) -> usize {
        self.0.values().sum()
    }
}

impl fmt::Display for Differ {
    fn fmt(&self, f: &mut fmt::Formatter<'_>) -> fmt::Result {
        write!(f, "{} differ", self.all())?;
        self.0.iter().try_for_each(|(judge, n)| write!(f, ", {n} from {judge}"))
    }
}

/// How many values were held to which judge.
#[derive(Default)]
pub struct Tally {
    values: usize,
    untouched: usize,
    requests: BTreeMap<&'static str, Touched>,
}

/// What a request does to the values of a run.
#[derive(Default)]
struct Touched {
    values: usize,
    /// Those on which the crate as it is answers otherwise.
    otherwise: usize,
    /// Those that no other request touches.
    alone: usize,
}

impl Tally {
    pub fn add(&mut self, judged: &Judged) {
        self.values += 1;
        self.untouched += usize::from(judged.touched.is_empty());
        for request in &judged.touched {
            let counts = self.requests.entry(request).or_default();
            counts.values += 1;
            counts.otherwise += usize::from(!judged.agree());
            counts.alone += usize::from(judged.touched.len() == 1);
        }
    }

    /// No value goes quiet: what each filter takes from the crate as it is stands there.
    pub fn print(&self) {
        println!("values compared with the patched crate: {}", self.values);
        println!("values compared with the crate as it is too: {}", self.untouched);
        for request in REQUESTS {
            let none = Touched::default();
            let t = self.requests.get(request.name).unwrap_or(&none);
            let name = request.name;
            println!("  without the filter of {name}: {}", self.untouched + t.alone);
            println!("  values that {name} touches: {}", t.values);
            println!("    of these the crate as it is answers otherwise: {}", t.otherwise);
        }
    }
}
