//! A typical finish record: 13 fields, 64 records.
use super::Row;
use oracle::frame::{DOUBLE, FLOAT, Field, INT, LONG, NULL, STRING, Schema, Value, hex};
use oracle::generate::{Rng, built};

/// timestamp-millis
const TIMESTAMP: u8 = 0x13;
const RECORDS: usize = 64;

pub fn typical() -> Row {
    Row::new("a finish, 13 fields (64 records)", &schema(), &records())
}

/// The same records with an Int where the last field wants UUID text.
pub fn refused_last() -> Row {
    let mut all = records();
    for v in &mut all {
        let Value::Record(items) = v else { unreachable!() };
        items.last_mut().unwrap().1 = Value::Int(7);
    }
    Row::new("the same, the last field refused (6)", &schema(), &all)
}

/// The same records without their last byte.
pub fn cut() -> Row {
    let mut row = Row::new("the same, the last byte missing (5)", &schema(), &records());
    row.values.iter_mut().for_each(|v| v.truncate(v.len() - 1));
    row
}

/// A finish with the fields that must be there, behind an entry that the schema lacks and that takes
/// long to skip: in all no more entries than are walked for each field.
pub fn behind_a_long_entry(n: usize) -> Row {
    let Value::Record(mut items) = record(&mut Rng::new(2026), 1) else { unreachable!() };
    items.retain(|(name, _)| {
        ["sail", "seq", "boat", "start", "finish", "elapsed", "id"].contains(&name.as_str())
    });
    items.insert(0, ("trace".into(), Value::Array(vec![Value::Null; n - 300])));
    Row::new("a finish behind a long entry", &schema(), &[Value::Record(items)])
}

fn nullable(first: Schema, second: Schema) -> Schema {
    Schema::Union(built(vec![first, second]).0)
}

fn schema() -> Schema {
    let classes = ["Laser", "Finn", "470", "49er", "Dragon"].map(String::from).to_vec();
    Schema::Record(vec![
        Field::new("sail", None, STRING),
        Field::new("seq", None, LONG),
        Field::new("boat", None, STRING),
        Field::new("class", Some(Value::text("Laser")), Schema::Enum(classes, Some("Laser".into()))),
        Field::new("start", None, Schema::Plain(TIMESTAMP)),
        Field::new("finish", None, nullable(NULL, Schema::Plain(TIMESTAMP))),
        Field::new("elapsed", None, DOUBLE),
        Field::new("corrected", Some(Value::Null), nullable(NULL, DOUBLE)),
        Field::new("rating", Some(Value::Double(1.0f64.to_bits())), FLOAT),
        Field::new("penalty", Some(Value::Int(0)), nullable(INT, NULL)),
        Field::new("laps", Some(Value::Array(vec![])), Schema::array(LONG)),
        Field::new("remark", Some(Value::Null), nullable(NULL, STRING)),
        Field::new("id", None, Schema::UuidString),
    ])
}

fn records() -> Vec<Value> {
    let mut r = Rng::new(2026);
    (0..RECORDS).map(|i| record(&mut r, i)).collect()
}

fn record(r: &mut Rng, i: usize) -> Value {
    let start = 1_794_000_000_000;
    let finish = match i % 8 {
        7 => Value::union(0, Value::Null),
        _ => Value::union(1, Value::Long(start + r.below(9_000_000) as i64)),
    };
    let elapsed = match i % 2 {
        0 => Value::Int(r.below(9000) as i32),
        _ => Value::Float((r.below(90000) as f32 / 10.0).to_bits()),
    };
    let laps = (0..i % 4).map(|_| Value::Int(r.below(3000) as i32)).collect();
    let mut items = vec![
        ("sail", Value::Str(format!("GBR {}", 100 + r.below(900)))),
        ("seq", Value::Int(i as i32)),
        ("boat", Value::text(["Kestrel", "Halcyon", "Wayfarer II", "Moth"][i % 4])),
        ("class", Value::Enum(1, ["Finn", "470", "Laser"][i % 3].into())),
        ("start", Value::Time64(TIMESTAMP, start)),
        ("finish", finish),
        ("elapsed", elapsed),
        ("laps", Value::Array(laps)),
    ];
    if i.is_multiple_of(2) {
        items.push(("corrected", Value::union(1, Value::Double((r.below(90000) as f64 / 8.0).to_bits()))));
    }
    if i.is_multiple_of(3) {
        items.push(("rating", Value::Double((0.8 + r.below(40) as f64 / 100.0).to_bits())));
        items.push(("remark", Value::text("port start, OCS cleared")));
    }
    items.push(("box", Value::Int(7)));
    items.push(("id", Value::Str(uuid(r))));
    Value::Record(items.into_iter().map(|(name, v)| (name.to_string(), v)).collect())
}

fn uuid(r: &mut Rng) -> String {
    let h = hex(&r.bytes(16));
    [&h[..8], &h[8..12], &h[12..16], &h[16..20], &h[20..]].join("-")
}
