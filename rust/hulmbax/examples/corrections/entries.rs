//! The reader schema, the finishes of race 1 of the series, and what crews entered again.

use crate::shared::{files, line, Any};
use hulmbax::{Error, RecordField, Schema, Value};

/// The reader schema of the series with a `seq`, which is 0 where none is sent.
pub fn reader_schema() -> Any<Schema> {
    match line::resolve(&files::read("series.txt")?)? {
        (Schema::Record(mut record), _) => {
            let seq = RecordField::new("seq", Schema::Long).with_default(0);
            record.fields.push(seq);
            Ok(Schema::Record(record))
        }
        (other, _) => Err(format!("the series is no Record, but {other}").into()),
    }
}

/// The finishes of race 1 that the sheet of the series took, as their clubs sent them.
pub fn first_finishes() -> Any<Vec<Value>> {
    let (_, lines) = line::resolve(&files::read("series.txt")?)?;
    let race_1 = |finish: &Value| finish.get("race") == Some(&Value::Int(1));
    let taken = lines
        .into_iter()
        .filter(|line| line.answer.as_ref().is_ok_and(race_1));
    Ok(taken.map(|line| line.sent).collect())
}

/// What the form of the race office writes: a `seq`, and a time as it was typed or none.
pub fn form_schema() -> Result<Schema, Error> {
    let elapsed = vec![Schema::Null, Schema::Double, Schema::String];
    Ok(Schema::record(vec![
        RecordField::new("sail", Schema::String),
        RecordField::new("race", Schema::Int),
        RecordField::new("seq", Schema::Int),
        RecordField::new("rating", Schema::Double),
        RecordField::new("elapsed", Schema::union(elapsed)?),
    ]))
}

/// What crews entered in it after race 1, in the order in which it came in. An entry stands for the
/// whole finish, so it has the rating too.
pub fn entries() -> Vec<Value> {
    let none = || Value::Union(0, Box::new(Value::Null));
    let seconds = |seconds: f64| Value::Union(1, Box::new(seconds.into()));
    let text = |text: &str| Value::Union(2, Box::new(text.into()));
    let entry = |sail: &str, seq: i32, rating: f64, elapsed: Value| {
        Value::record([
            ("sail", sail.into()),
            ("race", 1.into()),
            ("seq", seq.into()),
            ("rating", rating.into()),
            ("elapsed", elapsed),
        ])
    };
    vec![
        entry("A 12", 1, 1000.0, seconds(3589.0)),
        entry("A 12", 2, 1000.0, seconds(3591.0)),
        // retired, and was timed all the same
        entry("B 7", 1, 1010.0, none()),
        // was taken for retired: its first finish was NaN, which the sheet of the series refused
        entry("B 19", 1, 1043.5, seconds(3702.5)),
        // retired: its first finish was the text NaN, which was refused too; none is taken
        entry("C 8", 1, 985.0, none()),
        // the seq was not raised, and the later one counts
        entry("A 31", 0, 1000.0, seconds(3700.0)),
        // the second correction comes in before the first
        entry("C 5", 2, 985.0, seconds(3640.0)),
        entry("C 5", 1, 985.0, seconds(3645.0)),
        // the sheet doesn't take a text, so nothing is entered
        entry("C 5", 3, 985.0, text("1:00:40")),
        // its first finish was a text, which the sheet of the series didn't take
        entry("C 3", 1, 985.0, seconds(3725.0)),
    ]
}
