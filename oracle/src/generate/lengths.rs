//! Families of cases about counts and lengths: past 255, around 4,096 and around 65,535.
use super::random::Rng;
use super::scalars::*;
use super::schemas::*;
use super::values::*;
use super::{Case, case};
use crate::frame::{BOOLEAN, BYTES, Field, INT, LONG, NULL, STRING, Schema, Value};

/// Counts, lengths, positions and indexes past 255.
pub fn wide(r: &mut Rng) -> Case {
    let n = r.range(256, 700);
    let (s, v): (Schema, Vec<Value>) = match r.below(6) {
        0 => wide_record(r, n),
        1 => {
            let symbols: Vec<String> = (0..n).map(|i| format!("s{i}")).collect();
            let v = (0..6)
                .map(|_| Value::Str(symbols[edge(r, n)].clone()))
                .chain([Value::Enum(0, "none".into())])
                .collect();
            (Schema::Enum(symbols, Some(format!("s{}", edge(r, n)))), v)
        }
        2 => wide_union(r, n),
        3 => {
            let s = Schema::map(LONG);
            let v = (0..2)
                .map(|_| map_of((0..n).map(|i| (format!("{i}"), Value::Int(i as i32))).collect()))
                .collect();
            (s, v)
        }
        4 => {
            let s = r.pick(&[BYTES, STRING, Schema::Fixed(n as u16), Schema::Decimal(5, 0, Some(n as u16))]);
            let t = "w".repeat(n);
            let v = vec![
                Value::Str(t.clone()),
                Value::Bytes(t.clone().into_bytes()),
                Value::Fixed(t.clone().into_bytes()),
                Value::Decimal(t.into_bytes()),
                Value::Array((0..n).map(|i| Value::Int(i as i32 & 255)).collect()),
            ];
            (s, v)
        }
        _ => {
            let s = Schema::array(Schema::Plain(r.pick(&[3u8, 4, 5, 0x13])));
            let v = vec![Value::Array((0..n).map(|_| Value::Int(int(r))).collect())];
            (s, v)
        }
    };
    case(&s, &v)
}

/// A place at an edge of one byte.
fn edge(r: &mut Rng, n: usize) -> usize {
    r.pick(&[0, 1, 254, 255, 256, 257]).min(n - 1)
}

/// Many fields, with names alike but for the last digits.
fn wide_record(r: &mut Rng, n: usize) -> (Schema, Vec<Value>) {
    let name = |i: usize| format!("field-number-{i:05}");
    let s = Schema::Record(
        (0..n)
            .map(|i| {
                Field::new(
                    &name(i),
                    (i % 3 == 0).then_some(Value::Int(i as i32)),
                    Schema::Plain(r.pick(&[2u8, 3, 5])),
                )
            })
            .collect(),
    );
    let v = (0..2)
        .map(|_| {
            let mut f: Vec<(String, Value)> = (0..n)
                .filter(|i| i % 3 != 0 || i % 2 == 0)
                .map(|i| (name(i), Value::Int(i as i32)))
                .collect();
            if r.percent(50) {
                f.reverse();
            }
            if r.percent(30) {
                f.remove(0);
            }
            Value::Record(f)
        })
        .collect();
    (s, v)
}

/// Many enums, each with its own symbol.
fn wide_union(r: &mut Rng, n: usize) -> (Schema, Vec<Value>) {
    let variants: Vec<Schema> = (0..n).map(|i| Schema::Enum(vec![format!("s{i}")], None)).collect();
    let mut u = built(variants).0;
    let led = edge(r, n);
    if r.percent(60) {
        u.kinds = vec![(7, led as u16)];
    }
    if r.percent(30) {
        u.named.reverse();
    }
    let v = (0..8)
        .map(|i| {
            let t = format!("s{}", if i == 0 { led } else { edge(r, n) });
            if i == 0 || r.percent(50) { Value::Str(t) } else { Value::Enum(0, t) }
        })
        .collect();
    (Schema::Union(u), v)
}

/// Results and frames around 65,535 bytes.
pub fn long(r: &mut Rng) -> Case {
    let f = |s: &Schema, v: Vec<Value>| case(s, &v);
    let aim = |r: &mut Rng| 65_535 + r.pick(&[-2i64, -1, 0, 1, 2, 9]);
    match r.below(6) {
        // Ints that become Longs, and a text to make up the length
        0 => {
            let s = Schema::Record(vec![
                Field::new("a", None, Schema::array(LONG)),
                Field::new("b", None, STRING),
            ]);
            let v = (0..4)
                .map(|_| {
                    let n = 7000;
                    let rest = aim(r) - (3 + 3 + 3 + 9 * n + 3 + 3);
                    Value::Record(vec![
                        ("a".into(), Value::Array((0..n).map(|_| Value::Int(r.u64() as i32)).collect())),
                        ("b".into(), Value::Str("x".repeat(rest as usize))),
                    ])
                })
                .collect();
            f(&s, v)
        }
        // the value frame itself is as long
        1 => {
            let s = Schema::Plain(r.pick(&[6u8, 7, 3]));
            let v = (0..3).map(|_| Value::Str("y".repeat(((aim(r) - 3) as usize).min(65_535)))).collect();
            f(&s, v)
        }
        // small records that grow by their defaults
        2 => {
            let m = r.pick(&[50usize, 100, 300]);
            let s =
                Schema::array(Schema::Record(vec![Field::new("d", Some(Value::Str("z".repeat(m))), BYTES)]));
            let each = 3 + 3 + 3 + m as i64;
            let n = (65_535 - 3) / each;
            let v = [n - 1, n, n + 1, 3 * n]
                .iter()
                .map(|n| Value::Array((0..*n).map(|_| Value::Record(vec![])).collect()))
                .collect();
            f(&s, v)
        }
        // unions around each item
        3 => {
            let s = Schema::array(union_of(vec![NULL, BOOLEAN]));
            let n = (65_535 - 3) / 7;
            let v = [n - 1, n, n + 1]
                .iter()
                .map(|n| Value::Array((0..*n).map(|_| Value::Bool(true)).collect()))
                .collect();
            f(&s, v)
        }
        // a long schema
        4 => {
            let len = aim(r);
            // 0c, count, one symbol, flag
            let s = Schema::Enum(vec!["s".repeat((len - 6) as usize)], None);
            f(&s, vec![Value::text("s"), Value::Str("s".repeat(65_000)), Value::Null])
        }
        // a result that shrinks from a long frame
        _ => {
            let s = Schema::Record(vec![Field::new("k", None, INT)]);
            let v = (0..3)
                .map(|_| {
                    let fill = aim(r) - (3 + 3 + 9 + 4 + 3);
                    Value::Record(vec![
                        ("k".into(), Value::Long(5)),
                        ("xx".into(), Value::Bytes(vec![7; fill as usize])),
                    ])
                })
                .collect();
            f(&s, v)
        }
    }
}

/// Unions of a Record that grows past 65,535 bytes in a trial and a Map that doesn't: the trial
/// may fail at the end, lose against the kind table, or stand and give 18.
pub fn trials(r: &mut Rng) -> Case {
    let text = r.pick(&[50usize, 100, 300]);
    let item = |fields| Schema::array(Schema::Record(fields));
    let mut fields =
        vec![Field::new("a", None, item(vec![Field::new("d", Some(Value::Str("z".repeat(text))), BYTES)]))];
    if r.percent(40) {
        fields.push(Field::new("b", None, INT));
    }
    let mut variants = vec![Schema::Record(fields), Schema::map(item(vec![]))];
    if r.percent(50) {
        variants.reverse();
    }
    if r.percent(30) {
        variants.insert(0, NULL);
    }
    let mut u = built(variants).0;
    match r.below(5) {
        0 => u.kinds.clear(),
        1 => u.named.clear(),
        _ => {}
    }
    let wrapped = r.percent(40);
    let s = if wrapped { Schema::array(Schema::Union(u)) } else { Schema::Union(u) };
    let limit = 65_535 / (9 + text);
    let one = |r: &mut Rng| {
        let n = r.pick(&[0, 1, limit - 1, limit, limit + 1, 3 * limit]);
        let mut items = vec![("a".to_string(), Value::Array(vec![Value::Record(vec![]); n]))];
        match r.below(4) {
            0 => items.push(("b".into(), Value::Array(vec![]))),
            1 => items.push(("b".into(), Value::Int(7))),
            _ => {}
        }
        if r.percent(50) { Value::Map(items) } else { Value::Record(items) }
    };
    let v: Vec<Value> =
        (0..6).map(|_| if wrapped { Value::Array(vec![one(r), one(r)]) } else { one(r) }).collect();
    case(&s, &v)
}

/// Defaults in union fields whose resolved form is around 4,096 bytes.
pub fn longdefault(r: &mut Rng) -> Case {
    let aim = (4096 + r.pick(&[-6i64, -5, -4, -1, 0, 0, 0, 0, 1, 1, 1, 2, 4, 5, 6, 9])) as usize;
    let (first, d) = match r.below(7) {
        0 => (STRING, Value::Str("t".repeat(aim - 3))),
        1 => (BYTES, Value::Array((0..aim - 3).map(|i| Value::Int((i & 255) as i32)).collect())),
        2 => {
            let n = aim / 9;
            (Schema::array(LONG), Value::Array((0..n).map(|i| Value::Int(i as i32)).collect()))
        }
        // a record whose own default makes up the length
        3 => (
            Schema::Record(vec![Field::new("p", Some(Value::Str("q".repeat(aim - 10))), STRING)]),
            Value::Map(vec![]),
        ),
        // refused by the first variant: never 4
        4 => (INT, Value::Str("t".repeat(aim + 50))),
        // Null first: never 4
        5 => (NULL, Value::Str("t".repeat(aim + 50))),
        // small as a default, long once resolved: code points to bytes the other way about
        _ => (Schema::Decimal(1, 0, None), Value::Str("ÿ".repeat(aim - 3))),
    };
    let mut variants = vec![first];
    if r.percent(50) {
        variants.push(BOOLEAN);
    }
    if r.percent(30) && variants[0] != STRING {
        variants.push(STRING);
    }
    let (u, _) = built(variants);
    let mut s = Schema::Record(vec![Field::new("a", Some(d), Schema::Union(u))]);
    match r.below(4) {
        0 => s = Schema::array(s),
        1 => s = union_of(vec![NULL, s]),
        2 => s = Schema::Record(vec![Field::new("r", None, s)]),
        _ => {}
    }
    let empty = Value::Record(vec![]);
    let given = Value::Record(vec![("a".into(), Value::Bool(true))]);
    let mut v = vec![Value::Null, empty.clone(), given.clone(), Value::Map(vec![])];
    v.push(Value::Array(vec![empty.clone(), given.clone(), empty.clone()]));
    v.push(Value::Record(vec![("r".into(), empty)]));
    v.push(Value::Record(vec![("r".into(), given)]));
    case(&s, &v)
}
