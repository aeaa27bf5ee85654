//! Schemas, union tables and defaults.
use super::random::Rng;
use super::values::{any_default, map_of, value};
use crate::frame::{Field, LONG, NULL, Schema, Union, Value, hex};
use crate::precision::for_length;

/// How a value or schema is made.
#[derive(Clone, Copy)]
pub struct How {
    /// percent of nodes that are anything at all
    pub wrong: usize,
    /// percent of nodes wrapped in a Union
    pub wrap: usize,
    /// percent of unions with odd tables
    pub odd: usize,
    /// percent of fields with a default
    pub default: usize,
    /// only nullable pairs
    pub pairs: bool,
}

pub const PLAIN: How = How { wrong: 2, wrap: 8, odd: 30, default: 35, pairs: false };

/// A kind whose schema has no content; the numeric and textual ones more often.
pub fn plain_kind(r: &mut Rng) -> u8 {
    r.pick(&[
        0u8, 1, 2, 2, 3, 3, 4, 4, 5, 5, 6, 6, 7, 7, 0x10, 0x11, 0x12, 0x13, 0x14, 0x15, 0x16, 0x17, 0x18,
    ])
}

/// A schema without children.
pub fn leaf(r: &mut Rng) -> Schema {
    match r.below(24) {
        0..=12 => Schema::Plain(plain_kind(r)),
        13..=15 => enumeration(r),
        16 | 17 => Schema::Fixed(r.pick(&[0, 1, 2, 4, 12, 16])),
        18 | 19 => decimal(r),
        20 => Schema::UuidString,
        21 => r.pick(&[Schema::UuidBytes, Schema::UuidFixed(16)]),
        22 => Schema::Duration(12),
        _ => NULL,
    }
}

/// An Enum with few symbols, at times one twice, and a default that may be none of them.
pub fn enumeration(r: &mut Rng) -> Schema {
    let mut s: Vec<String> = ["A", "B", "C", "D", "é", "red", ""].iter().map(|s| s.to_string()).collect();
    r.shuffle(&mut s);
    s.truncate(r.below(5));
    if r.percent(8) && !s.is_empty() {
        s.push(s[0].clone());
    }
    let d = match r.below(4) {
        0 if !s.is_empty() => Some(r.pick(&s)),
        1 => Some(r.pick(&["A", "B", "nowhere"]).to_string()),
        _ => None,
    };
    Schema::Enum(s, d)
}

/// A Decimal whose precision is near what a length can hold.
pub fn decimal(r: &mut Rng) -> Schema {
    let len = r.pick(&[0usize, 1, 1, 2, 3, 4, 8, 16, 127, 128, 129, 200]);
    let p = match u32::try_from(for_length(len)) {
        Err(_) => r.pick(&[308u32, 1000, u32::MAX, 0, 310]),
        Ok(p) => r.pick(&[p, p + 1, p.saturating_sub(1), p / 2, 1, 0]),
    };
    let scale = match r.below(8) {
        0 => p.saturating_add(1),
        1 => p,
        _ => p / 2,
    };
    let size = match r.below(3) {
        0 => Some(len as u16),
        1 => Some(r.pick(&[0u16, 1, 2, 4, 16, 127, 128, 129])),
        _ => None,
    };
    Schema::Decimal(p, scale, size)
}

/// The kind that stands for a schema in the builder's tables, and whether it is a named one.
pub fn base_kind(s: &Schema) -> (u8, bool) {
    match s {
        Schema::Plain(0x10 | 0x11) => (2, false),
        Schema::Plain(k @ 0..=7) => (*k, false),
        Schema::Plain(_) => (3, false),
        Schema::Array(_) => (8, false),
        Schema::Map(_) => (9, false),
        Schema::Union(_) => (0x0a, false),
        Schema::Record(_) => (0x0b, true),
        Schema::Enum(..) => (0x0c, true),
        Schema::Fixed(_) | Schema::Duration(_) | Schema::UuidFixed(_) | Schema::Decimal(_, _, Some(_)) => {
            (0x0d, true)
        }
        Schema::Decimal(_, _, None) | Schema::UuidBytes => (6, false),
        Schema::UuidString => (7, false),
    }
}

/// The tables as the crate's builder makes them; false if it would refuse the variants.
pub fn built(variants: Vec<Schema>) -> (Union, bool) {
    let mut u = Union { variants, kinds: vec![], named: vec![] };
    let mut ok = true;
    for (i, v) in u.variants.iter().enumerate() {
        let (k, named) = base_kind(v);
        if named {
            u.named.push(i as u16);
        } else if u.kinds.iter().any(|e| e.0 == k) || k == 0x0a {
            ok = false;
        } else {
            u.kinds.push((k, i as u16));
        }
    }
    u.kinds.sort();
    (u, ok)
}

/// A union with the tables of the builder.
pub fn union_of(variants: Vec<Schema>) -> Schema {
    Schema::Union(built(variants).0)
}

/// The kind table leads this kind to that variant, or nowhere.
pub fn lead(u: &mut Union, kind: u8, to: Option<usize>) {
    u.kinds.retain(|e| e.0 != kind);
    u.kinds.extend(to.map(|to| (kind, to as u16)));
    u.kinds.sort();
}

/// Changes the tables of a union to ones that the builder wouldn't make.
pub fn odd_tables(r: &mut Rng, u: &mut Union) {
    let n = u.variants.len() as u64;
    match r.below(5) {
        // the kind table leads to named variants too
        4 => {
            let mut k: Vec<u8> = u.kinds.iter().map(|e| e.0).collect();
            for i in 0..u.variants.len() {
                let (b, named) = base_kind(&u.variants[i]);
                if named && r.percent(70) {
                    let add = match b {
                        0x0b => 9,
                        0x0d => r.pick(&[6u8, 7]),
                        _ => r.pick(&[7u8, 2, 0x0a]),
                    };
                    if !k.contains(&add) || r.percent(50) {
                        k.push(add);
                        u.kinds.retain(|e| e.0 != add);
                        u.kinds.push((add, i as u16));
                    }
                }
            }
            u.kinds.sort();
            if r.percent(50) {
                r.shuffle(&mut u.named);
            }
        }
        // some of the right ones gone
        0 => {
            if !u.kinds.is_empty() && r.percent(70) {
                u.kinds.remove(r.below(u.kinds.len()));
            }
            if !u.named.is_empty() && r.percent(50) {
                u.named.remove(r.below(u.named.len()));
            }
        }
        // some led elsewhere
        1 => {
            for e in u.kinds.iter_mut() {
                if r.percent(40) {
                    e.1 = (r.u64() % n) as u16;
                }
            }
            r.shuffle(&mut u.named);
        }
        // anything
        2 => {
            let mut k: Vec<u8> = vec![];
            for _ in 0..r.below(8) {
                let x = if r.percent(70) {
                    r.pick(&[0u8, 1, 2, 3, 4, 5, 6, 7, 8, 9, 0x0a])
                } else {
                    r.below(0x1a) as u8
                };
                k.push(x);
            }
            k.sort();
            k.dedup();
            u.kinds = k.into_iter().map(|k| (k, (r.u64() % n) as u16)).collect();
            u.named = (0..r.below(5)).map(|_| (r.u64() % n) as u16).collect();
        }
        // named list over everything, kinds empty or one
        _ => {
            u.named = (0..n as u16).collect();
            if r.percent(50) {
                u.named.reverse();
            }
            if r.percent(50) {
                u.kinds = vec![(r.pick(&[2u8, 6, 7, 8, 9, 0x0a, 0x0b]), (r.u64() % n) as u16)];
            }
        }
    }
}

/// A union of Null and another, with the builder's tables or others that leave it a nullable pair.
fn nullable_pair(r: &mut Rng, d: usize, h: How) -> Schema {
    let x = loop {
        let x = schema(r, d - 1, h);
        if !matches!(x, Schema::Union(_) | NULL) {
            break x;
        }
    };
    let null = r.below(2);
    let other = 1 - null as u16;
    let mut v = vec![x.clone(), x];
    v[null] = NULL;
    let (mut u, _) = built(v);
    if r.percent(h.odd) {
        u.kinds = vec![(0, null as u16)];
        for k in 1..=0x19u8 {
            if r.percent(20) {
                u.kinds.push((k, other));
            }
        }
        u.named = (0..r.below(4)).map(|_| r.below(2) as u16).collect();
    }
    Schema::Union(u)
}

/// A union of one to six variants, or a nullable pair.
pub fn union(r: &mut Rng, d: usize, h: How) -> Schema {
    if h.pairs {
        return nullable_pair(r, d, h);
    }
    let n = r.pick(&[1, 2, 2, 3, 3, 4, 5, 6]);
    let mut variants: Vec<Schema> = vec![];
    for _ in 0..n {
        for _ in 0..4 {
            let x = match schema(r, d - 1, h) {
                Schema::Union(_) => leaf(r),
                x => x,
            };
            let mut all = variants.clone();
            all.push(x.clone());
            if built(all).1 || r.percent(10) {
                variants.push(x);
                break;
            }
        }
    }
    if variants.is_empty() {
        variants.push(LONG);
    }
    if r.percent(25) {
        variants.retain(|v| *v != NULL);
        variants.insert(0, NULL);
    }
    let (mut u, _) = built(variants);
    if r.percent(h.odd) {
        odd_tables(r, &mut u);
    }
    Schema::Union(u)
}

pub const NAMES: &[&str] = &["a", "b", "c", "sail", "seq", "k1", "k2", "é", "", "z", "finish", "boat"];

/// A record of up to five fields.
pub fn record(r: &mut Rng, d: usize, h: How) -> Schema {
    let mut names: Vec<String> = NAMES.iter().map(|s| s.to_string()).collect();
    r.shuffle(&mut names);
    names.truncate(r.below(6));
    Schema::Record(
        names
            .into_iter()
            .map(|name| {
                let schema = schema(r, d - 1, h);
                let default = if r.percent(h.default) { Some(default_for(r, &schema, h)) } else { None };
                Field::new(&name, default, schema)
            })
            .collect(),
    )
}

/// A schema of at most `d` levels.
pub fn schema(r: &mut Rng, d: usize, h: How) -> Schema {
    if d <= 1 {
        return leaf(r);
    }
    match r.below(14) {
        0..=4 => leaf(r),
        5 | 6 => Schema::array(schema(r, d - 1, h)),
        7 | 8 => Schema::map(schema(r, d - 1, h)),
        9..=11 => union(r, d, h),
        _ => record(r, d, h),
    }
}

/// A default that mostly suits the schema.
pub fn default_for(r: &mut Rng, s: &Schema, h: How) -> Value {
    if r.percent(15) {
        return any_default(r, 3);
    }
    let d = match s {
        Schema::Union(u) => {
            let first = &u.variants[if r.percent(85) { 0 } else { r.below(u.variants.len()) }];
            value(r, first, 4, How { wrong: 1, wrap: 0, ..h })
        }
        s => value(r, s, 4, How { wrong: 1, wrap: 0, ..h }),
    };
    jsonable(r, d)
}

/// Makes a value one that passes 3 as a default.
pub fn jsonable(r: &mut Rng, v: Value) -> Value {
    match v {
        Value::Null | Value::Bool(_) | Value::Int(_) | Value::Str(_) => v,
        Value::Long(n) => i32::try_from(n).map_or(Value::Long(n), Value::Int),
        Value::Float(b) => {
            let x = f32::from_bits(b) as f64;
            if x.is_finite() {
                Value::Double(x.to_bits())
            } else {
                Value::Str(r.pick(&["NaN", "INF", "-INF"]).to_string())
            }
        }
        Value::Double(b) => {
            if f64::from_bits(b).is_finite() {
                v
            } else {
                Value::Str(r.pick(&["NaN", "Infinity", "-Infinity"]).to_string())
            }
        }
        Value::Bytes(b) | Value::Fixed(b) | Value::Decimal(b) => match r.below(3) {
            0 => Value::Array(b.into_iter().map(|x| Value::Int(x as i32)).collect()),
            1 => Value::Str(b.into_iter().map(|x| x as char).collect()),
            _ => Value::Str(String::from_utf8_lossy(&b).into_owned()),
        },
        Value::Array(items) => Value::Array(items.into_iter().map(|v| jsonable(r, v)).collect()),
        Value::Map(items) | Value::Record(items) => {
            map_of(items.into_iter().map(|(k, v)| (k, jsonable(r, v))).collect())
        }
        Value::Union(_, v) => jsonable(r, *v),
        Value::Enum(_, s) => Value::Str(s),
        Value::Uuid(b) => Value::Str(hex(&b)),
        Value::Time32(_, n) => Value::Int(n),
        Value::Time64(_, n) => i32::try_from(n).map_or(Value::Long(n), Value::Int),
        Value::Duration(_) => Value::text("P"),
    }
}
