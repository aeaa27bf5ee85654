//! What the sheet reads from a line: a finish, or that it is pending.

use super::line::Line;
use super::Any;
use hulmbax::{Error, Reader, RecordField, Schema, Value};

/// A finish as the reader schema gives it.
pub struct Finish {
    pub sail: String,
    pub race: i32,
    elapsed: Option<f64>,
    rating: f64,
}

impl Finish {
    // An accepted record has just the reader schema's fields.
    fn of(value: &Value) -> Option<Finish> {
        Some(Finish {
            sail: value.get("sail")?.as_str()?.to_string(),
            race: value.get("race")?.as_i32()?,
            elapsed: value.get("elapsed")?.as_f64(),
            rating: value.get("rating")?.as_f64()?,
        })
    }

    /// The corrected time of a boat that finished: that has an elapsed time from which a number
    /// comes out. None and infinity give no place. An accepted record holds no NaN, but infinity by
    /// infinity, or zero by zero, makes one here, which must not reach the comparison of times, where
    /// nothing is less or greater.
    pub fn corrected(&self) -> Option<f64> {
        let corrected = self.elapsed? * 1000.0 / self.rating;
        Some(corrected).filter(|seconds| seconds.is_finite())
    }
}

/// A record that was refused, and is to be asked for again: the boat is not without a finish, its
/// finish is not known yet.
pub struct Pending {
    /// The boat, where the record tells it.
    pub sail: Option<String>,
    /// The race, where the record tells it.
    pub race: Option<i32>,
    /// The place in the input, and why.
    pub why: String,
}

/// The finishes of the lines that were accepted, and what is pending of the others.
pub fn read<'a>(lines: impl IntoIterator<Item = &'a Line>) -> Any<(Vec<Finish>, Vec<Pending>)> {
    let mut whose = Reader::new(&whose_schema()?)?;
    let (mut finishes, mut pending) = (Vec::new(), Vec::new());
    for line in lines {
        match &line.answer {
            Ok(value) => finishes.push(Finish::of(value).ok_or("the result is no finish")?),
            Err(error) => {
                let whose = whose.resolve(&line.sent).unwrap_or(Value::Null);
                let told = |name| whose.get(name);
                pending.push(Pending {
                    sail: told("sail").and_then(Value::as_str).map(str::to_string),
                    race: told("race").and_then(Value::as_i32),
                    why: format!("line {}: {}", line.number, reason(error)),
                });
            }
        }
    }
    Ok((finishes, pending))
}

// The error and, if it has one, its cause: of a text that stands for a time the error says only that
// no variant takes it, and the cause whether it would be a NaN.
fn reason(error: &Error) -> String {
    match error.root_cause() {
        cause if cause == error => error.to_string(),
        cause => format!("{error}: {cause}"),
    }
}

// Whose record it is, and of which race, can be told of most records that the sheet refuses.
fn whose_schema() -> Any<Schema> {
    let optional = |name, schema| -> Any<RecordField> {
        Ok(RecordField::new(name, Schema::nullable(schema)?).with_default(Value::Null))
    };
    Ok(Schema::record(vec![
        optional("sail", Schema::String)?,
        optional("race", Schema::Int)?,
    ]))
}

#[cfg(test)]
mod tests {
    use super::*;

    #[test]
    fn what_is_no_number_gives_no_place() {
        let corrected = |elapsed, rating| {
            let (sail, race) = (String::new(), 1);
            let finish = Finish {
                sail,
                race,
                elapsed,
                rating,
            };
            finish.corrected()
        };
        assert_eq!(corrected(Some(60.0), 1250.0), Some(48.0));
        assert_eq!(corrected(None, 1250.0), None);
        let infinity = f64::INFINITY;
        for (elapsed, rating) in [(infinity, 1250.0), (infinity, infinity), (0.0, 0.0)] {
            assert_eq!(corrected(Some(elapsed), rating), None);
        }
    }
}
