//! The sheet: who finished each race, at what corrected time, and the points of the series.

use crate::shared::line::Line;
use crate::shared::series::{Got, Series};
use crate::shared::Any;
use std::collections::BTreeMap;

/// The sheet in words. Low points: a boat's place, or one more than the boats of the series where
/// it has none. A boat whose record was refused is pending: it gets no points for that race, and
/// stands below those whose points are final.
pub fn sheet(lines: &[Line]) -> Any<String> {
    let series = Series::of(lines)?;
    let mut totals: BTreeMap<&str, Total> = BTreeMap::new();
    let mut out = String::new();
    for race in series.races() {
        out += &series.heading(race);
        for place in series.places(race) {
            let total = totals.entry(place.sail).or_default();
            match place.got {
                Got::Pending => total.pending.push(race),
                _ => total.points += place.points,
            }
            out += &place.line();
        }
    }
    Ok(out + &series_points(totals) + &series.pending_list())
}

/// What a boat has of the series.
#[derive(Default)]
struct Total {
    points: usize,
    pending: Vec<i32>,
}

fn series_points(totals: BTreeMap<&str, Total>) -> String {
    let mut totals: Vec<_> = totals.into_iter().collect();
    totals.sort_by_key(|(_, total)| (!total.pending.is_empty(), total.points));
    let line = |(sail, Total { points, pending }): (&str, Total)| {
        let races: Vec<String> = pending.iter().map(|race| format!("race {race}")).collect();
        match races.is_empty() {
            true => format!("  {points:2}  {sail}\n"),
            false => format!(
                "  {points:2}  {sail:4}  without {}, pending\n",
                races.join(", ")
            ),
        }
    };
    "Series, points\n".to_string() + &totals.into_iter().map(line).collect::<String>()
}

#[cfg(test)]
mod tests {
    use super::*;
    use crate::clubs::reader_schema;
    use hulmbax::{Reader, Value};

    // The sheet of these records: a boat, a race and an elapsed time each, as they were sent.
    fn sheet_of(records: &[(&str, i32, Value)]) -> String {
        let mut reader = Reader::new(&reader_schema().unwrap()).unwrap();
        let mut line = |(number, (sail, race, elapsed)): (usize, &(&str, i32, Value))| {
            let sent = Value::record([
                ("sail", (*sail).into()),
                ("race", (*race).into()),
                ("elapsed", elapsed.clone()),
            ]);
            let answer = reader.resolve(&sent);
            Line {
                number,
                sent,
                answer,
            }
        };
        let lines: Vec<Line> = (2..).zip(records).map(&mut line).collect();
        sheet(&lines).unwrap()
    }

    #[test]
    fn a_refused_record_is_pending_and_no_last_place() {
        let sheet = sheet_of(&[
            ("A", 1, 60.into()),
            ("B", 1, "soon".into()),
            ("C", 1, ().into()),
        ]);
        assert!(sheet.starts_with("Race 1, corrected times, 1 pending\n   1  A     60.00 s\n"));
        assert!(
            sheet.contains("   4  C     no finish\n   -  B     pending\n"),
            "{sheet}"
        );
        let points = "Series, points\n   1  A\n   4  C\n   0  B     without race 1, pending\n";
        assert!(sheet.contains(points), "{sheet}");
        assert!(
            sheet.contains("Pending\n  B, race 1; line 3: elapsed: no variant"),
            "{sheet}"
        );
    }

    #[test]
    fn a_nan_is_pending_and_the_sheet_says_why() {
        let sheet = sheet_of(&[
            ("A", 1, 60.into()),
            ("B", 1, f64::NAN.into()),
            ("C", 1, "NaN".into()),
            ("D", 1, "INF".into()),
        ]);
        assert!(sheet.starts_with("Race 1, corrected times, 2 pending\n   1  A     60.00 s\n"));
        let below = "   5  D     no finish\n   -  B     pending\n   -  C     pending\n";
        assert!(sheet.contains(below), "{sheet}");
        let (_, pending) = sheet.split_once("Pending\n").unwrap();
        let lines: Vec<&str> = pending.lines().collect();
        let [double, text] = lines[..] else {
            panic!("{sheet}");
        };
        assert!(double.starts_with("  B, race 1; line 3: elapsed: a NaN"));
        assert!(text.starts_with("  C, race 1; line 4: elapsed: no variant"));
        assert!(double.ends_with("(refusal 28)") && text.ends_with("(refusal 28)"));
    }

    #[test]
    fn a_record_that_was_accepted_counts_whatever_else_was_sent() {
        let sheet = sheet_of(&[("A", 1, "soon".into()), ("A", 1, 60.into())]);
        assert!(sheet.contains("   1  A     60.00 s\n"), "{sheet}");
        assert!(sheet.contains("Series, points\n   1  A\n"), "{sheet}");
    }
}
