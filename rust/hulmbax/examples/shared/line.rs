//! An input of program `resolve`: lines of hexadecimal, the schema and then records.

use super::Any;
use hulmbax::{hex, Error, Reader, Refusal, Schema, Value};

/// A record of the input, and what the sheet gets from it.
pub struct Line {
    /// Its place in the input, from 1; the schema is line 1.
    pub number: usize,
    pub sent: Value,
    pub answer: Result<Value, Error>,
}

impl Line {
    /// The line that program `resolve` writes.
    pub fn output(&self) -> Any<String> {
        Ok(match &self.answer {
            Ok(value) => format!("+ {}\n", hex::encode(&value.to_frame()?)),
            Err(error) => format!("- {}\n", error.refusal().map_or(0, Refusal::number)),
        })
    }

    /// The cells of a table: its number, what was sent, and what the sheet gets.
    pub fn cells(&self) -> String {
        let Line { number, sent, .. } = self;
        match &self.answer {
            Ok(value) => format!("| {number} | {sent} | {value} |"),
            Err(error) => format!("| {number} | {sent} | pending: {error} |"),
        }
    }
}

/// The lines of a schema and of records.
pub fn input<'a>(schema: &Schema, records: impl IntoIterator<Item = &'a Value>) -> Any<String> {
    let mut lines = vec![hex::encode(&schema.to_frame()?)];
    for record in records {
        lines.push(hex::encode(&record.to_frame()?));
    }
    Ok(lines.join("\n") + "\n")
}

/// The schema of an input, and its records, resolved.
pub fn resolve(input: &str) -> Any<(Schema, Vec<Line>)> {
    let mut frames = input.lines().map(frame);
    let schema = frames.next().ok_or("the input has no schema")??;
    let mut reader = Reader::new(&Schema::from_frame(&schema)?)?;
    let mut lines = Vec::new();
    for (number, record) in (2..).zip(frames) {
        let sent = Value::from_frame(&record?)?;
        let answer = reader.resolve(&sent);
        lines.push(Line {
            number,
            sent,
            answer,
        });
    }
    Ok((reader.schema().clone(), lines))
}

fn frame(line: &str) -> Any<Vec<u8>> {
    hex::decode(line).ok_or_else(|| format!("not hexadecimal: {line}").into())
}
