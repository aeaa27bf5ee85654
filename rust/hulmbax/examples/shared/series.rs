//! Who finished each race, at what corrected time, and who is pending.

use super::finish::{self, Finish, Pending};
use super::line::Line;
use super::Any;
use std::collections::BTreeSet;

/// The finishes of races, of which a boat's first in each race counts, and what is pending.
pub struct Series {
    finishes: Vec<Finish>,
    pending: Vec<Pending>,
}

/// What a boat has of a race.
#[derive(Clone, Copy, PartialEq)]
pub enum Got {
    /// A corrected time in seconds.
    Time(f64),
    NoFinish,
    Pending,
}

/// What a boat gets in a race.
pub struct Place<'a> {
    pub sail: &'a str,
    pub got: Got,
    pub points: usize,
}

impl Series {
    /// What the sheet reads from these lines.
    pub fn of<'a>(lines: impl IntoIterator<Item = &'a Line>) -> Any<Series> {
        let (finishes, pending) = finish::read(lines)?;
        Ok(Series { finishes, pending })
    }

    fn boats(&self) -> BTreeSet<&str> {
        let finished = self.finishes.iter().map(|f| f.sail.as_str());
        let pending = self.pending.iter().filter_map(|p| p.sail.as_deref());
        finished.chain(pending).collect()
    }

    pub fn races(&self) -> BTreeSet<i32> {
        let finished = self.finishes.iter().map(|f| f.race);
        let pending = self.pending.iter().filter_map(|p| p.race);
        finished.chain(pending).collect()
    }

    /// While a record is pending, the places may still change.
    pub fn heading(&self, race: i32) -> String {
        match self.pending.iter().filter(|p| p.race == Some(race)).count() {
            0 => format!("Race {race}, corrected times\n"),
            n => format!("Race {race}, corrected times, {n} pending\n"),
        }
    }

    fn got(&self, sail: &str, race: i32) -> Got {
        let is_of = |s: &str, r| s == sail && r == race;
        let mut sent = self.finishes.iter().filter(|f| is_of(&f.sail, f.race));
        let mut pending = self.pending.iter();
        match sent.next().map(Finish::corrected) {
            Some(Some(seconds)) => Got::Time(seconds),
            Some(None) => Got::NoFinish,
            None if pending.any(|p| p.sail.as_deref() == Some(sail) && p.race == Some(race)) => {
                Got::Pending
            }
            None => Got::NoFinish,
        }
    }

    /// Each boat of the series in the race, in order.
    pub fn places(&self, race: i32) -> Vec<Place<'_>> {
        let boats = self.boats();
        let got: Vec<Got> = boats.iter().map(|sail| self.got(sail, race)).collect();
        let earlier = |than: f64| {
            let times = got
                .iter()
                .filter(|got| matches!(got, Got::Time(t) if *t < than));
            times.count()
        };
        let points = |got| match got {
            Got::Time(seconds) => 1 + earlier(seconds),
            Got::NoFinish => boats.len() + 1,
            Got::Pending => 0,
        };
        let boats_with = boats.iter().zip(&got);
        let mut places: Vec<Place> = boats_with
            .map(|(sail, got)| Place {
                sail,
                got: *got,
                points: points(*got),
            })
            .collect();
        places.sort_by_key(|place| (place.got == Got::Pending, place.points));
        places
    }

    /// What is to be asked for again, if anything is.
    pub fn pending_list(&self) -> String {
        if self.pending.is_empty() {
            return String::new();
        }
        let line = |p: &Pending| {
            let boat = p.sail.as_deref().unwrap_or("boat unknown");
            let race = p
                .race
                .map_or("race unknown".to_string(), |r| format!("race {r}"));
            format!("  {boat}, {race}; {}\n", p.why)
        };
        "Pending\n".to_string() + &self.pending.iter().map(line).collect::<String>()
    }
}

impl Place<'_> {
    pub fn line(&self) -> String {
        let Place { sail, points, .. } = self;
        match self.got {
            Got::Time(seconds) => format!("  {points:2}  {sail:4}  {seconds:.2} s\n"),
            Got::NoFinish => format!("  {points:2}  {sail:4}  no finish\n"),
            Got::Pending => format!("   -  {sail:4}  pending\n"),
        }
    }
}
