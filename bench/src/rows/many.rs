//! Many fields, many entries, long texts.
use super::Row;
use crate::hash;
use oracle::frame::{DOUBLE, Field, INT, LONG, STRING, Schema, Value};
use oracle::generate::Rng;

/// The bytes of a long text.
const LONG_TEXT: usize = 60_000;
/// How many names there are, where they have to be told apart.
const NAMES: usize = 200;

pub fn one_int() -> Row {
    Row::new("one Int", &INT, &[Value::Int(7)])
}

/// Names alike but for the last digits.
pub fn at_the_end(i: usize) -> String {
    format!("elapsed_time_in_seconds_at_the_mark_{i:06}")
}

/// Names alike but for the first digits.
pub fn at_the_front(i: usize) -> String {
    format!("{i:06}_elapsed_time_in_seconds_at_the_mark")
}

/// The first letters of one text: no two have the same length, and all are alike as far as they go.
pub fn by_lengths(i: usize) -> String {
    (0..=i).map(|k| (b'a' + ((7 * k + k / 26) % 26) as u8) as char).collect()
}

/// 200 fields with the first of these names; the record has them in another order.
pub fn fields(title: &str, name: fn(usize) -> String) -> Row {
    named_fields(title, (0..).map(name))
}

/// The same with the first of these names that fall into one row of the table of an entry's names.
pub fn fields_of_one_row(title: &str, name: fn(usize) -> String) -> Row {
    named_fields(title, (0..).map(name).filter(|name| hash::row(name) == 0))
}

fn named_fields(title: &str, names: impl Iterator<Item = String>) -> Row {
    let names: Vec<String> = names.take(NAMES).collect();
    let schema = Schema::Record(names.iter().map(|name| Field::new(name, None, LONG)).collect());
    let mut items: Vec<_> = names.into_iter().zip((0..).map(Value::Int)).collect();
    Rng::new(1).shuffle(&mut items);
    Row::new(title, &schema, &[Value::Record(items)])
}

/// An Enum of 200 symbols, and a String for each in another order.
pub fn symbols(title: &str, name: fn(usize) -> String) -> Row {
    let names: Vec<String> = (0..NAMES).map(name).collect();
    let mut items: Vec<_> = names.iter().map(|name| Value::text(name)).collect();
    Rng::new(1).shuffle(&mut items);
    Row::new(title, &Schema::array(Schema::Enum(names, None)), &[Value::Array(items)])
}

/// 200 fields with defaults, every other one missing in the record.
pub fn half_missing() -> Row {
    let name = |i: usize| format!("mark{i}");
    let default = || Some(Value::Int(0));
    let schema = Schema::Record((0..200).map(|i| Field::new(&name(i), default(), DOUBLE)).collect());
    let items = (0..200).step_by(2).map(|i| (name(i), Value::Int(i as i32))).collect();
    Row::new("200 fields, 100 from defaults", &schema, &[Value::Record(items)])
}

pub fn arrays() -> Row {
    let schema = Schema::array(Schema::array(Schema::array(LONG)));
    let twelve = |v: Value| Value::Array(vec![v; 12]);
    let v = twelve(twelve(twelve(Value::Int(41))));
    Row::new("arrays in arrays, 12 x 12 x 12 Ints", &schema, &[v])
}

pub fn map() -> Row {
    let items = (0..200).map(|i| (format!("boat{i:03}"), Value::Int(i))).collect();
    Row::new("a map of 200 entries", &Schema::map(DOUBLE), &[Value::Map(items)])
}

pub fn ascii() -> Row {
    text("a text of 60,000 bytes, ASCII", "port start, OCS cleared. ")
}

pub fn wide_characters() -> Row {
    text("a text of 60,000 bytes, 2 and 3 each", "éøñł€ᚠ中文")
}

/// A record of one text, which is repeated to 60,000 bytes.
fn text(name: &str, part: &str) -> Row {
    let long = part.repeat(LONG_TEXT / part.len());
    assert_eq!(long.len(), LONG_TEXT);
    let schema = Schema::Record(vec![Field::new("remark", None, STRING)]);
    Row::new(name, &schema, &[Value::Record(vec![("remark".into(), Value::Str(long))])])
}
