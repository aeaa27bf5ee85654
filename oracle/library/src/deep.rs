//! Frames that go as deep as frames can, to measure the stack by.
use oracle::frame::{
    BYTES, Field, INT, MAX_DEPTH, NULL, STRING, Schema, Union, Value, schema_frame, value_frame,
};
use oracle::generate::{Rng, built};

/// A name, a schema frame and a value frame.
type Row = (String, Vec<u8>, Vec<u8>);
type Pair = (Schema, Value);

/// How many chains of levels of any sort are tried.
const MIXED: usize = 4000;

/// One level around a schema and a value: how many levels of schema it has, and how it is made.
type Level = (usize, fn(Pair) -> Pair);

fn array((s, v): Pair) -> Pair {
    (Schema::array(s), Value::Array(vec![v]))
}

fn map((s, v): Pair) -> Pair {
    (Schema::map(s), Value::Map(vec![("f".into(), v)]))
}

fn record((s, v): Pair) -> Pair {
    (Schema::Record(vec![Field::new("f", None, s)]), Value::Record(vec![("f".into(), v)]))
}

/// A Map for a Record.
fn map_for_record((s, v): Pair) -> Pair {
    (record((s, Value::Null)).0, map((NULL, v)).1)
}

/// The field that goes deeper stands last of so many; the value has as many entries.
fn wide_record((s, v): Pair, n: usize) -> Pair {
    let name = |i: usize| format!("f{i:03}");
    let mut fields: Vec<_> = (1..n).map(|i| Field::new(&name(i), None, NULL)).collect();
    let mut items: Vec<_> = (1..n).map(|i| (name(i), Value::Null)).collect();
    fields.push(Field::new("f", None, s));
    items.push(("f".into(), v));
    (Schema::Record(fields), Value::Record(items))
}

fn record_of_ten(p: Pair) -> Pair {
    wide_record(p, 10)
}

/// The field is missing; its default is an empty Map.
fn missing((s, _): Pair) -> Pair {
    (Schema::Record(vec![Field::new("f", Some(Value::Map(vec![])), s)]), Value::Record(vec![]))
}

/// A union of one record.
fn union((s, v): Pair) -> Pair {
    let (s, v) = record((s, v));
    (Schema::Union(built(vec![s]).0), v)
}

/// A record with a field of such a union, which is missing.
fn missing_union((s, v): Pair) -> Pair {
    let (s, _) = missing((s, v));
    missing((Schema::Union(built(vec![s]).0), Value::Null))
}

/// A Map under a union of an Array, which its kind table gives for a Map, and a Record.
fn union_twice((s, v): Pair) -> Pair {
    let (s, v) = map_for_record((s, v));
    let variants = vec![Schema::array(NULL), s];
    (Schema::Union(Union { variants, kinds: vec![(9, 0)], named: vec![1] }), v)
}

const LEVELS: [Level; 9] = [
    (1, array),
    (1, map),
    (1, record),
    (1, map_for_record),
    (1, record_of_ten),
    (1, missing),
    (2, union),
    (3, missing_union),
    (2, union_twice),
];

/// As many levels of one sort as there is room for around what is innermost.
fn nested(levels: usize, inner: Pair, level: Level) -> Pair {
    (0..levels / level.0).fold(inner, |p, _| level.1(p))
}

fn innermost() -> Vec<(&'static str, Pair)> {
    let text = |t: &str| Value::text(t);
    let symbols = ["a", "b"].map(String::from).to_vec();
    vec![
        ("an empty record", (Schema::Record(vec![]), Value::Record(vec![]))),
        ("an Int", (INT, Value::Int(7))),
        ("an Int for a String (6)", (STRING, Value::Int(7))),
        ("UUID text", (Schema::UuidString, text(&"00".repeat(16)))),
        ("a Decimal from text", (Schema::Decimal(2, 0, None), text("abé"))),
        ("a symbol", (Schema::Enum(symbols, Some("b".into())), text("c"))),
        ("Bytes as a String", (STRING, Value::Bytes(b"abc".to_vec()))),
        ("an empty Array as Bytes", (BYTES, Value::Array(vec![]))),
    ]
}

/// A value that is as deep as can be.
fn deep_default() -> Value {
    (1..MAX_DEPTH).fold(Value::Null, |v, _| Value::Map(vec![("k".into(), v)]))
}

fn row(name: impl Into<String>, (s, v): Pair) -> Row {
    (name.into(), schema_frame(&s), value_frame(&v))
}

pub fn frames() -> Vec<Row> {
    let empty = || (Schema::Record(vec![]), Value::Record(vec![]));
    let most = MAX_DEPTH - 1;
    let mut rows = vec![row("one Int", (INT, Value::Int(7)))];
    for (name, inner) in innermost() {
        rows.push(row(format!("records, innermost {name}"), nested(most, inner, (1, record))));
    }
    let sorts: [(&str, Level); 8] = [
        ("arrays", (1, array)),
        ("maps", (1, map)),
        ("Maps for records", (1, map_for_record)),
        ("records of 10 fields", (1, record_of_ten)),
        ("records of 300 fields", (1, |p| wide_record(p, 300))),
        ("records, each missing", (1, missing)),
        ("unions of records", (2, union)),
        ("unions of an Array and a Record, for Maps", (2, union_twice)),
    ];
    for (name, level) in sorts {
        rows.push(row(format!("{name}, innermost an empty record"), nested(most, empty(), level)));
    }
    let defaults = nested(most, empty(), (3, missing_union));
    rows.push(row("union fields in records, each from its default", defaults));
    let field = |default, schema| Schema::Record(vec![Field::new("f", Some(default), schema)]);
    let leaf = (field(deep_default(), NULL), Value::Record(vec![("f".into(), Value::Null)]));
    rows.push(row("records, innermost a default 16 deep", nested(most - 1, leaf, (1, record))));
    let list = (BYTES, Value::Array(vec![Value::union(0, Value::Int(7))]));
    rows.push(row("records, innermost an Array as Bytes", nested(most - 2, list, (1, record))));
    let twice = Schema::Record(vec![Field::new("f", None, NULL), Field::new("f", None, NULL)]);
    rows.push(row(
        "records, innermost a name twice (3)",
        nested(most - 1, (twice, Value::Null), (1, record)),
    ));
    let (_, deep) = nested(most, empty(), (1, |(s, v)| (s, Value::union(0, v))));
    rows.push(row("Unions in Unions (6)", (INT, deep)));
    rows
}

/// Chains of levels of any sort, most of them records, which take the most.
pub fn mixed() -> Vec<(Vec<u8>, Vec<u8>)> {
    let mut r = Rng::new(1);
    (0..MIXED).map(|_| chain(&mut r)).collect()
}

fn chain(r: &mut Rng) -> (Vec<u8>, Vec<u8>) {
    let records = r.pick(&[50, 80, 95]);
    let mut left = MAX_DEPTH - 1;
    let mut pair = r.pick(&innermost()).1;
    while left > 0 {
        let (levels, make) =
            if r.percent(records) { (1, record as fn(Pair) -> Pair) } else { r.pick(&LEVELS) };
        if levels <= left {
            pair = make(pair);
            left -= levels;
        }
    }
    (schema_frame(&pair.0), value_frame(&pair.1))
}
