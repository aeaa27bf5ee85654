//! Families of cases about what 2, 3 and 5 check.
use super::damage::{damage, unruly, unruly_map};
use super::random::Rng;
use super::scalars::*;
use super::schemas::*;
use super::values::*;
use super::{Case, VALUES, case, many};
use crate::frame::{
    BOOLEAN, BYTES, DOUBLE, Field, INT, LONG, NULL, STRING, Schema, Union, Value, schema_frame, schema_ok,
    value_frame,
};

/// Maps whose keys fall or repeat, where they count and under names nobody reads.
pub fn keys(r: &mut Rng) -> Case {
    let h = How { wrong: 0, wrap: 5, ..PLAIN };
    let s = match r.below(4) {
        0 => Schema::map(leaf(r)),
        1 => Schema::array(Schema::map(leaf(r))),
        2 => Schema::Record(vec![Field::new("a", Some(Value::Int(1)), LONG)]),
        _ => union_of(vec![NULL, Schema::map(leaf(r))]),
    };
    let v = (0..VALUES)
        .map(|_| {
            let mut v = value(r, &s, 5, h);
            if r.percent(50) {
                let inner = unruly_map(r);
                let extra = match r.below(3) {
                    0 => Value::Array(vec![inner]),
                    1 => Value::union(0, inner),
                    _ => inner,
                };
                v = match v {
                    Value::Record(mut i) => {
                        i.push(("ignored".into(), extra));
                        Value::Record(i)
                    }
                    Value::Map(mut i) if matches!(s, Schema::Record(_)) => {
                        i.push(("zzzz".into(), extra));
                        Value::Map(i)
                    }
                    v => v,
                };
            }
            unruly(r, v)
        })
        .collect::<Vec<_>>();
    case(&s, &v)
}

/// One byte that says yes or no, or which form, is another.
pub fn flags(r: &mut Rng) -> Case {
    let (s, v): (Schema, Value) = match r.below(4) {
        0 => (BOOLEAN, Value::Bool(true)),
        1 => (Schema::Enum(vec!["A".into()], Some("A".into())), Value::text("A")),
        2 => (Schema::Decimal(1, 0, r.pick(&[None, Some(1)])), Value::Bytes(vec![1])),
        _ => (r.pick(&[Schema::UuidBytes, Schema::UuidString, Schema::UuidFixed(16)]), Value::Uuid([7; 16])),
    };
    let mut sb = schema_frame(&Schema::Record(vec![Field::new("a", Some(Value::Bool(true)), s)]));
    let vb = value_frame(&Value::Record(vec![("a".into(), v.clone())]));
    let mut vs = vec![vb.clone()];
    for b in [0u8, 1, 2, 3, 0xff] {
        vs.push(value_frame(&Value::Array(vec![Value::Bool(true)])).into_iter().take(4).chain([b]).collect());
        let mut x =
            value_frame(&Value::Record(vec![("a".into(), v.clone()), ("b".into(), Value::Bool(false))]));
        *x.last_mut().unwrap() = b;
        vs.push(x);
    }
    if r.percent(75) {
        // 0b, count, name (3 bytes), flag, 01, boolean, kind, ...
        let i = r.pick(&[6usize, 8, 9, 10, sb.len() - 1, sb.len() - 3]).min(sb.len() - 1);
        sb[i] = r.pick(&[0u8, 1, 2, 3, 4, 0xff]);
        vs.truncate(3);
    }
    (sb, vs)
}

/// Values, schemas and defaults of 14 to 17 levels.
pub fn depth(r: &mut Rng) -> Case {
    match r.below(3) {
        0 => {
            let d = r.pick(&[15, 16, 16, 17]);
            let (s, v) = deep_pair(r, d);
            let mut vs = vec![value_frame(&v)];
            for _ in 0..6 {
                let d = r.pick(&[14, 15, 16, 17]);
                vs.push(value_frame(&deep_value(r, d)));
                vs.push(value_frame(&Value::union(0, v.clone())));
            }
            (schema_frame(&s), vs)
        }
        1 => {
            // a deep default, under a field that lies deep itself
            let d = r.pick(&[15, 16, 16, 17]);
            let (mut s, mut v) = (INT, Value::Int(5));
            for _ in 1..d {
                if r.percent(50) {
                    s = Schema::array(s);
                    v = Value::Array(vec![v]);
                } else {
                    s = Schema::map(s);
                    v = Value::Map(vec![(key(r), v)]);
                }
            }
            // the schema must stay within its own depth: cut it where need be
            let s = if d > 15 { INT } else { s };
            let s = Schema::Record(vec![Field::new("a", Some(v), s)]);
            let v = vec![
                Value::Record(vec![]),
                Value::Record(vec![("a".into(), Value::Int(3))]),
                Value::Map(vec![]),
            ];
            case(&s, &v)
        }
        _ => {
            let s = schema(r, 2, PLAIN);
            let v = (0..VALUES)
                .map(|_| {
                    let d = r.pick(&[14, 15, 16, 17]);
                    value_frame(&deep_value(r, d))
                })
                .collect();
            (schema_frame(&s), v)
        }
    }
}

/// Sound frames with a byte changed, cut off, put in or left out.
pub fn damaged(r: &mut Rng) -> Case {
    let d = r.range(1, 3);
    let h = How { wrong: 1, ..PLAIN };
    let s = schema(r, d, h);
    if r.percent(30) {
        let v = many(r, &s, VALUES, h).iter().map(value_frame).collect::<Vec<_>>();
        let v = v.into_iter().map(|b| if r.percent(85) { damage(r, b) } else { b }).collect();
        (schema_frame(&s), v)
    } else {
        let v = many(r, &s, 3, h).iter().map(value_frame).collect();
        let b = schema_frame(&s);
        (damage(r, b), v)
    }
}

/// Each fault that 3 names, or nearly, somewhere in a schema.
pub fn schemafaults(r: &mut Rng) -> Case {
    let h = How { wrong: 1, ..PLAIN };
    let mut s = schema(r, 3, h);
    let bad = match r.below(14) {
        12 | 13 => {
            // keys of a default's map
            let m = unruly_map(r);
            let m = match r.below(3) {
                0 => Value::Array(vec![m]),
                1 => Value::Map(vec![("a".into(), m)]),
                _ => m,
            };
            Schema::Record(vec![Field::new("d", Some(m), INT)])
        }
        0 => Schema::Union(Union { variants: vec![], kinds: vec![], named: vec![] }),
        1 => {
            let u = union(r, 2, h);
            union_of(vec![NULL, u])
        }
        2 => Schema::Union(Union {
            variants: vec![INT],
            kinds: vec![(r.pick(&[0x19u8, 0x1a, 0xff]), 0)],
            named: vec![],
        }),
        3 => Schema::Union(Union {
            variants: vec![INT, LONG],
            kinds: vec![(3, 0), (r.pick(&[2u8, 3, 3, 4]), 1)],
            named: vec![],
        }),
        4 => Schema::Union(Union {
            variants: vec![INT, LONG],
            kinds: vec![(3, r.pick(&[1u16, 2]))],
            named: vec![],
        }),
        5 => Schema::Union(Union {
            variants: vec![INT, LONG],
            kinds: vec![],
            named: vec![0, r.pick(&[1u16, 2])],
        }),
        6 => {
            let x = Field::new("a", None, INT);
            Schema::Record(vec![x.clone(), Field { name: r.pick(&["a", "b"]).to_string(), ..x }])
        }
        7 => Schema::Duration(r.pick(&[11u16, 12, 13, 0])),
        8 => Schema::UuidFixed(r.pick(&[15u16, 16, 17, 0])),
        _ => {
            let d = match r.below(8) {
                0 => Value::Long(int(r) as i64),
                1 => Value::Double(double(r)),
                2 => Value::Float(0x3f80_0000),
                3 => Value::Map(vec![
                    ("b".into(), Value::Null),
                    (r.pick(&["a", "b", "c"]).to_string(), Value::Null),
                ]),
                4 => Value::Array(vec![any(r, 1)]),
                5 => Value::Array(vec![Value::Array(vec![Value::Map(vec![("é".into(), any(r, 1))])])]),
                _ => any(r, 3),
            };
            Schema::Record(vec![Field::new("d", Some(d), r.pick(&[INT, BYTES, STRING, DOUBLE]))])
        }
    };
    for _ in 0..r.below(4) {
        s = match r.below(4) {
            0 => Schema::array(bad.clone()),
            1 => Schema::map(bad.clone()),
            2 => Schema::Record(vec![Field::new("r", None, bad.clone())]),
            _ => bad.clone(),
        };
    }
    let mut v: Vec<Vec<u8>> = (0..4).map(|_| value_frame(&any(r, 3))).collect();
    v.push(vec![]);
    v.push(vec![0x1a]);
    if schema_ok(&s) {
        v.extend(many(r, &s, 6, h).iter().map(value_frame));
    }
    (schema_frame(&s), v)
}

/// A value of a given depth.
fn deep_value(r: &mut Rng, depth: usize) -> Value {
    let mut v = if r.percent(50) { Value::Null } else { Value::Int(int(r)) };
    for _ in 1..depth {
        v = match r.below(4) {
            0 => Value::Array(vec![v]),
            1 => Value::Map(vec![(key(r), v)]),
            2 => Value::union(0, v),
            _ => Value::Record(vec![("a".into(), v)]),
        };
    }
    v
}

/// A schema of a given depth with a value that goes down as far.
fn deep_pair(r: &mut Rng, depth: usize) -> (Schema, Value) {
    let mut s = LONG;
    let mut v = Value::Int(int(r));
    let mut last = 9;
    for _ in 1..depth {
        let mut k = r.below(4);
        if k == 2 && last == 2 {
            k = 0;
        }
        last = k;
        (s, v) = match k {
            0 => (Schema::array(s), Value::Array(vec![v])),
            1 => (Schema::map(s), Value::Map(vec![(key(r), v)])),
            2 => {
                let (u, _) = built(vec![NULL, s]);
                (Schema::Union(u), Value::union(1, v))
            }
            _ => (Schema::Record(vec![Field::new("a", None, s)]), Value::Record(vec![("a".into(), v)])),
        };
    }
    (s, v)
}
