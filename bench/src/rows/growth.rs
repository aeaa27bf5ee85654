//! Frames of growing size: fields, depth, unions in unions.
use super::Row;
use oracle::frame::{DOUBLE, Field, INT, LONG, STRING, Schema, Union, Value};

pub fn fields() -> Vec<Row> {
    [10, 100, 1000].map(some_fields).into()
}

fn some_fields(n: usize) -> Row {
    let name = |i: usize| format!("field{i}");
    let schema = Schema::Record((0..n).map(|i| Field::new(&name(i), None, LONG)).collect());
    let v = Value::Record((0..n).map(|i| (name(i), Value::Int(i as i32))).collect());
    Row::new(format!("{n} fields"), &schema, &[v])
}

pub fn depths() -> Vec<Row> {
    (1..=16).map(|n| depth(n, &format!("depth {n}"))).collect()
}

/// Frames of depth n: n - 1 records of three fields, one in the other, and an Int.
pub fn depth(n: usize, name: &str) -> Row {
    let (mut schema, mut value) = (INT, Value::Int(7));
    for _ in 1..n {
        let fields = [("mark", STRING), ("elapsed", DOUBLE), ("next", schema)];
        schema = Schema::Record(fields.map(|(name, s)| Field::new(name, None, s)).into());
        let items = [("mark", Value::text("buoy")), ("elapsed", Value::Int(90)), ("next", value)];
        value = Value::Record(items.map(|(name, v)| (name.to_string(), v)).into());
    }
    Row::new(name, &schema, &[value])
}

const LEVELS: [usize; 4] = [2, 4, 6, 8];

pub fn unions_accepted() -> Vec<Row> {
    LEVELS.map(|n| unions(n, true, &format!("{n} levels"))).into()
}

pub fn unions_refused() -> Vec<Row> {
    LEVELS.map(|n| unions(n, false, &format!("{n} levels"))).into()
}

/// n unions, each of one record that holds the next; each `named_index` has the record's position
/// twice. The innermost record has no field; where refused, an Int stands in its place.
pub fn unions(n: usize, accepted: bool, name: &str) -> Row {
    let mut schema = union_of(Schema::Record(vec![]));
    let mut value = if accepted { Value::Record(vec![]) } else { Value::Int(7) };
    for _ in 1..n {
        let fields = vec![Field::new("next", None, schema), Field::new("seq", None, LONG)];
        schema = union_of(Schema::Record(fields));
        value = Value::Record(vec![("next".into(), value), ("seq".into(), Value::Int(7))]);
    }
    Row::new(name, &schema, &[value])
}

fn union_of(record: Schema) -> Schema {
    Schema::Union(Union { variants: vec![record], kinds: vec![], named: vec![0, 0] })
}
