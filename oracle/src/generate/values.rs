//! Values: of any kind, as a default, and for a schema.
use super::random::Rng;
use super::scalars::*;
use super::schemas::{How, NAMES};
use crate::frame::{Field, Schema, Value, hex};
use crate::precision::needed;

/// A map of these entries, in order; of equal keys one stays.
pub fn map_of(mut items: Vec<(String, Value)>) -> Value {
    items.sort_by(|a, b| a.0.as_bytes().cmp(b.0.as_bytes()));
    items.dedup_by(|a, b| a.0 == b.0);
    Value::Map(items)
}

/// A value of this kind.
pub fn of_kind(r: &mut Rng, k: u8) -> Value {
    match k {
        6 => Value::Bytes(utf8_or_not(r)),
        7 => Value::Str(text(r)),
        8 => {
            let n = r.below(4);
            let top = r.pick(&[256usize, 256, 300]);
            Value::Array(
                (0..n)
                    .map(
                        |_| {
                            if r.percent(85) { Value::Int(r.below(top) as i32) } else { Value::Long(long(r)) }
                        },
                    )
                    .collect(),
            )
        }
        9 => {
            let n = r.below(4);
            map_of((0..n).map(|_| (r.pick(NAMES).to_string(), any(r, 1))).collect())
        }
        0x0a => Value::union(0, Value::union(1, any(r, 1))),
        0x0b => {
            let n = r.below(6);
            Value::Record((0..n).map(|_| (r.pick(NAMES).to_string(), any(r, 1))).collect())
        }
        _ => loop {
            let v = any(r, 1);
            if v.kind() == k {
                break v;
            }
        },
    }
}

/// Any value.
pub fn any(r: &mut Rng, d: usize) -> Value {
    let top = if d > 1 { 0x1a } else { 0x15 };
    match r.below(top) {
        0 => Value::Null,
        1 => Value::Bool(r.percent(50)),
        2 => Value::Int(int(r)),
        3 => Value::Long(long(r)),
        4 => Value::Float(float(r)),
        5 => Value::Double(double(r)),
        6 => Value::Bytes(utf8_or_not(r)),
        7 => Value::Str(text(r)),
        8 => Value::Enum(r.u64() as u32 & 7, r.pick(&["A", "B", "C", "D", "é"]).to_string()),
        9 => {
            let n = r.pick(&[0, 1, 2, 4, 12, 16, 5]);
            Value::Fixed(r.bytes(n))
        }
        10 => {
            let n = r.pick(&[0, 1, 2, 4, 12, 16, 5]);
            Value::Decimal(r.bytes(n))
        }
        11 => Value::Uuid(r.bytes(16).try_into().unwrap()),
        12 => Value::Time32(0x10, int(r)),
        13 => Value::Time32(0x11, int(r)),
        14..=18 => {
            let k = 0x12 + r.below(7) as u8;
            Value::Time64(k, long(r))
        }
        19 => Value::Duration(r.bytes(12).try_into().unwrap()),
        20 => Value::Fixed(utf8_or_not(r)),
        21 => {
            let n = r.below(4);
            Value::Array((0..n).map(|_| any(r, d - 1)).collect())
        }
        22 => {
            let n = r.below(4);
            map_of((0..n).map(|_| (key(r), any(r, d - 1))).collect())
        }
        23 | 24 => Value::union(r.below(4) as u32, any(r, d - 1)),
        _ => {
            let n = r.below(4);
            Value::Record((0..n).map(|_| (key(r), any(r, d - 1))).collect())
        }
    }
}

/// A default that passes 3.
pub fn any_default(r: &mut Rng, d: usize) -> Value {
    match r.below(if d > 1 { 9 } else { 7 }) {
        0 => Value::Null,
        1 => Value::Bool(r.percent(50)),
        2 | 3 => Value::Int(int(r)),
        4 => long_outside(r),
        5 => Value::Double(finite_double(r)),
        6 => Value::Str(text(r)),
        7 => {
            let n = r.below(4);
            Value::Array((0..n).map(|_| any_default(r, d - 1)).collect())
        }
        _ => {
            let n = r.below(4);
            map_of((0..n).map(|_| (key(r), any_default(r, d - 1))).collect())
        }
    }
}

/// A Long outside Int.
fn long_outside(r: &mut Rng) -> Value {
    let n = long(r);
    if i32::try_from(n).is_ok() {
        Value::Long(r.pick(&[1i64 << 31, -(1i64 << 31) - 1, 1 << 53, i64::MAX]))
    } else {
        Value::Long(n)
    }
}

/// A value that mostly resolves against the schema, in at most `d` levels.
pub fn value(r: &mut Rng, s: &Schema, d: usize, h: How) -> Value {
    if d > 1 && r.percent(h.wrap) {
        let i = r.pick(&[0u32, 1, 2, u32::MAX]);
        let inner = value(r, s, d - 1, How { wrap: h.wrap / 4, ..h });
        return Value::union(i, inner);
    }
    if r.percent(h.wrong) {
        return any(r, d.min(3));
    }
    match s {
        Schema::Plain(k) => plain_value(r, *k, d, h),
        Schema::Array(i) => {
            let n = if d > 1 { r.pick(&[0, 1, 1, 2, 3, 5]) } else { 0 };
            Value::Array((0..n).map(|_| value(r, i, d - 1, h)).collect())
        }
        Schema::Map(i) => {
            let n = if d > 1 { r.pick(&[0, 1, 1, 2, 3, 5]) } else { 0 };
            map_of((0..n).map(|_| (key(r), value(r, i, d - 1, h))).collect())
        }
        Schema::Union(u) => {
            let i = r.below(u.variants.len());
            if d > 1 && r.percent(45) {
                Value::union(r.pick(&[i as u32, 0, 9]), value(r, &u.variants[i], d - 1, h))
            } else {
                value(r, &u.variants[i], d, h)
            }
        }
        Schema::Record(fields) => record_value(r, fields, d, h),
        Schema::Enum(symbols, _) => {
            let s = if symbols.is_empty() || (h.wrong > 0 && r.percent(12)) {
                r.pick(&["A", "Q", "unknown", ""]).to_string()
            } else {
                r.pick(symbols)
            };
            if r.percent(50) { Value::Str(s) } else { Value::Enum(r.below(6) as u32, s) }
        }
        Schema::Fixed(n) => {
            let n = *n as usize;
            match r.below(4) {
                0 => Value::Bytes(r.bytes(n)),
                1 => Value::Str(text(r)),
                _ if h.wrong > 0 && r.percent(5) => Value::Fixed(r.bytes(n + 1)),
                _ => Value::Fixed(r.bytes(n)),
            }
        }
        Schema::Decimal(p, _, _) => decimal_value(r, *p, h),
        Schema::UuidString => match r.below(4) {
            0 => Value::Uuid(r.bytes(16).try_into().unwrap()),
            _ if h.wrong > 0 => Value::Str(uuid_text(r)),
            _ => Value::Str(hex(&r.bytes(16))),
        },
        Schema::UuidBytes => match r.below(4) {
            0 => Value::Uuid(r.bytes(16).try_into().unwrap()),
            1 if h.wrong > 0 && r.percent(30) => Value::Bytes(r.bytes(15)),
            _ => Value::Bytes(r.bytes(16)),
        },
        Schema::UuidFixed(_) => match r.below(5) {
            0 => Value::Uuid(r.bytes(16).try_into().unwrap()),
            1 => {
                Value::Str(r.pick(&["0123456789abcdef", "éééééééé", "short", "0123456789abcdeé"]).to_string())
            }
            2 if h.wrong > 0 && r.percent(30) => Value::Fixed(r.bytes(12)),
            _ => Value::Fixed(r.bytes(16)),
        },
        Schema::Duration(_) => match r.below(4) {
            0 if h.wrong > 0 && r.percent(30) => Value::Fixed(r.bytes(11)),
            0 | 1 => Value::Fixed(r.bytes(12)),
            _ => Value::Duration(r.bytes(12).try_into().unwrap()),
        },
    }
}

/// For the kinds whose schema has no content.
fn plain_value(r: &mut Rng, k: u8, d: usize, h: How) -> Value {
    match k {
        0 => Value::Null,
        1 => Value::Bool(r.percent(50)),
        2 => match r.below(10) {
            0..=5 => Value::Int(int(r)),
            6..=8 => Value::Long(int(r) as i64),
            _ if h.wrong > 0 && r.percent(60) => Value::Long(long(r)),
            _ => Value::Int(int(r)),
        },
        3 => {
            if r.percent(50) {
                Value::Int(int(r))
            } else {
                Value::Long(long(r))
            }
        }
        4 | 5 => match r.below(10) {
            0 | 1 => Value::Int(int(r)),
            2..=4 => Value::Long(long(r)),
            5 | 6 => Value::Float(float(r)),
            7 | 8 => Value::Double(double(r)),
            _ => Value::Str(r.pick(&["NaN", "INF", "-INF", "Infinity", "-Infinity"]).to_string()),
        },
        6 => bytes_value(r, d, h),
        7 => match r.below(5) {
            0 if h.wrong > 0 && r.percent(30) => Value::Bytes(utf8_or_not(r)),
            1 if h.wrong > 0 && r.percent(30) => Value::Fixed(utf8_or_not(r)),
            0 => Value::Bytes(text(r).into_bytes()),
            1 => Value::Fixed(text(r).into_bytes()),
            _ => Value::Str(text(r)),
        },
        0x10 | 0x11 => {
            if r.percent(50) {
                Value::Int(int(r))
            } else {
                Value::Time32(k, int(r))
            }
        }
        _ => match r.below(3) {
            0 => Value::Int(int(r)),
            1 => Value::Long(long(r)),
            _ => Value::Time64(k, long(r)),
        },
    }
}

fn bytes_value(r: &mut Rng, d: usize, h: How) -> Value {
    match r.below(4) {
        0 => Value::Str(text(r)),
        1 if d > 1 => {
            let n = r.below(6);
            let top = if h.wrong > 0 && r.percent(20) { 300 } else { 256 };
            Value::Array(
                (0..n)
                    .map(|_| {
                        let x = r.below(top) as i32;
                        let v = if r.percent(30) { Value::Long(x as i64) } else { Value::Int(x) };
                        if d > 2 && r.percent(h.wrap) { Value::union(0, v) } else { v }
                    })
                    .collect(),
            )
        }
        _ => Value::Bytes(utf8_or_not(r)),
    }
}

/// Most fields in order, and at times other names between them or a name twice.
fn record_value(r: &mut Rng, fields: &[Field], d: usize, h: How) -> Value {
    if d <= 1 {
        return Value::Record(vec![]);
    }
    let mut items: Vec<(String, Value)> = vec![];
    for f in fields {
        let leave = if f.default.is_some() {
            35
        } else if h.wrong > 0 {
            1
        } else {
            0
        };
        if !r.percent(leave) {
            items.push((f.name.clone(), value(r, &f.schema, d - 1, h)));
        }
    }
    if r.percent(20) {
        r.shuffle(&mut items);
    }
    while r.percent(25) {
        let at = r.below(items.len() + 1);
        items.insert(at, (r.pick(&["x1", "x2", "extra", "k9"]).to_string(), any(r, (d - 1).min(3))));
    }
    // equal names; the last counts
    if r.percent(12) && !fields.is_empty() {
        let f = &fields[r.below(fields.len())];
        let at = if r.percent(70) { 0 } else { r.below(items.len() + 1) };
        let v = if r.percent(60) { any(r, (d - 1).min(2)) } else { value(r, &f.schema, d - 1, h) };
        items.insert(at, (f.name.clone(), v));
    }
    if r.percent(15) { map_of(items) } else { Value::Record(items) }
}

/// Bytes around the length that the precision needs.
fn decimal_value(r: &mut Rng, p: u32, h: How) -> Value {
    let mut n = r.pick(&[0usize, 1, 2, 4, 16, 127, 128, 129]);
    if r.percent(80) {
        let mut need = needed(p);
        if h.wrong > 0 && r.percent(10) {
            need = need.saturating_sub(1);
        }
        n = need;
    }
    let b = match r.below(4) {
        0 => vec![if r.percent(50) { 0 } else { 0xff }; n],
        _ => r.bytes(n),
    };
    match r.below(7) {
        0 | 1 => Value::Bytes(b),
        2 => Value::Fixed(b),
        3 => Value::Str(text(r)),
        _ => Value::Decimal(b),
    }
}
