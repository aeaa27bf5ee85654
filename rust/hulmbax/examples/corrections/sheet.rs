//! The sheet as it stood before the corrections, and after them.

use crate::shared::line::Line;
use crate::shared::series::Series;
use crate::shared::Any;
use hulmbax::{current, Value};
use std::collections::BTreeMap;

/// Both sheets in words.
pub fn before_and_after(lines: &[Line]) -> Any<String> {
    let before = sheet(&current_lines(first_lines(lines))?)?;
    let after = sheet(&current_lines(lines)?)?;
    Ok(format!(
        "Before the corrections\n\n{before}\nAfter the corrections\n\n{after}"
    ))
}

/// The finishes as their clubs sent them, which have no seq.
pub fn first_lines(lines: &[Line]) -> impl Iterator<Item = &Line> {
    lines.iter().filter(|line| line.sent.get("seq").is_none())
}

/// The lines of the finishes that are current, and of the records that were refused. The library names
/// one finish for each sail, so it is asked once for each race.
pub fn current_lines<'a>(lines: impl IntoIterator<Item = &'a Line>) -> Any<Vec<&'a Line>> {
    let mut races: BTreeMap<Option<i32>, Vec<(&Line, &Value)>> = BTreeMap::new();
    let mut kept = Vec::new();
    for line in lines {
        match &line.answer {
            Ok(finish) => {
                let race = finish.get("race").and_then(Value::as_i32);
                races.entry(race).or_default().push((line, finish));
            }
            Err(_) => kept.push(line),
        }
    }
    for finishes in races.values() {
        let places = current(finishes.iter().map(|(_, finish)| *finish))?;
        kept.extend(places.into_iter().map(|place| finishes[place].0));
    }
    Ok(kept)
}

fn sheet(lines: &[&Line]) -> Any<String> {
    let series = Series::of(lines.iter().copied())?;
    let mut out = String::new();
    for race in series.races() {
        out += &series.heading(race);
        for place in series.places(race) {
            out += &place.line();
        }
    }
    Ok(out + &series.pending_list())
}

#[cfg(test)]
mod tests {
    use super::*;
    use crate::entries::reader_schema;
    use crate::shared::line;

    // The lines of these records: a boat, a race and a seq each.
    fn lines(records: &[(&str, i32, i32)]) -> Vec<Line> {
        let record = |(sail, race, seq): &(&str, i32, i32)| {
            Value::record([
                ("sail", (*sail).into()),
                ("race", (*race).into()),
                ("seq", (*seq).into()),
            ])
        };
        let records: Vec<Value> = records.iter().map(record).collect();
        let input = line::input(&reader_schema().unwrap(), &records).unwrap();
        line::resolve(&input).unwrap().1
    }

    #[test]
    fn a_correction_of_one_race_leaves_the_others() {
        let lines = lines(&[("A", 1, 0), ("A", 2, 0), ("B", 1, 0), ("A", 1, 1)]);
        let current = current_lines(&lines).unwrap();
        let numbers: Vec<usize> = current.iter().map(|line| line.number).collect();
        assert_eq!(numbers, [5, 4, 3]);
    }
}
