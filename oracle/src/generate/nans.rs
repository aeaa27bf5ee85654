//! Cases about Q-10: NaNs, and what is next to one, against Float and Double.
use super::Case;
use super::places::{grown, placed, under};
use super::random::Rng;
use super::scalars::{double_nan, finite_double, float_nan, int, key};
use super::schemas::{built, lead, odd_tables, union_of};
use super::values::map_of;
use crate::frame::{BOOLEAN, BYTES, DOUBLE, FLOAT, Field, INT, LONG, NULL, STRING, Schema, Union, Value};

/// How many ways `nans` has.
pub const NANS: usize = 20;

/// One of the ways.
pub fn any_nans(r: &mut Rng) -> Case {
    let way = r.below(NANS);
    nans(r, way)
}

/// NaNs and their neighbours against a Float or a Double, in one of the ways in which they can meet.
pub fn nans(r: &mut Rng, way: usize) -> Case {
    let x = r.pick(&[FLOAT, DOUBLE]);
    match way {
        0 | 1 => bare(r, x),
        2 => deep(r, x),
        3 => elsewhere(r),
        4 => ignored(r, x),
        5 => with_default(r, x),
        6 => inner_default(r, x, false),
        7 => union_default(r, x),
        8 => inner_default(r, x, true),
        9 => kept_default(r, x),
        10 | 11 => trial(r, x),
        12 => records(r, x),
        13 => led(r, x),
        14 | 15 => nullable(r, x),
        16 => failing(r, x),
        17 => tried(r, x),
        18 => measured(r, x),
        _ => {
            let text = r.pick(&["NaN", "NaN", "INF", "nan"]).to_string();
            let length = r.pick(&[3000, 5000]);
            grown(r, x, text, length)
        }
    }
}

// ---------------------------------------------------------------- values

/// Only the first is a NaN; some are infinities, most are near one of these and nothing.
const TEXTS: &[&str] = &[
    "NaN",
    "INF",
    "-INF",
    "Infinity",
    "-Infinity",
    "nan",
    "NAN",
    "Nan",
    "-NaN",
    "+NaN",
    "NaN ",
    " NaN",
    "NaN\u{0}",
    "NaNs",
    "Na",
    "",
    "inf",
    "-inf",
    "Inf",
    "+INF",
    "infinity",
    "+Infinity",
    "INFINITY",
];

/// Infinities, the greatest that is finite, zeros, subnormal ones, one.
const FLOATS: &[u32] =
    &[0x7f80_0000, 0xff80_0000, 0x7f7f_ffff, 0xff7f_ffff, 0x8000_0000, 0, 1, 0x807f_ffff, 0x3f80_0000];

/// The same; then the least that becomes an infinite Float, either sign, and the greatest that doesn't.
const DOUBLES: &[u64] = &[
    0x7ff0_0000_0000_0000,
    0xfff0_0000_0000_0000,
    0x7fef_ffff_ffff_ffff,
    0xffef_ffff_ffff_ffff,
    0x8000_0000_0000_0000,
    0,
    1,
    0x800f_ffff_ffff_ffff,
    0x3ff0_0000_0000_0000,
    0x47ef_ffff_f000_0000,
    0xc7ef_ffff_f000_0000,
    0x47ef_ffff_efff_ffff,
];

fn text(r: &mut Rng) -> Value {
    Value::text(if r.percent(40) { "NaN" } else { r.pick(TEXTS) })
}

/// A Float that is a NaN: one of a list, one with a single bit below the exponent, or any.
fn nan_float(r: &mut Rng) -> Value {
    let sign = (r.below(2) as u32) << 31;
    Value::Float(match r.below(4) {
        0 | 1 => float_nan(r),
        2 => sign | 0x7f80_0000 | 1 << r.below(23),
        _ => sign | 0x7f80_0000 | (r.u64() as u32 & 0x007f_ffff).max(1),
    })
}

fn nan_double(r: &mut Rng) -> Value {
    let sign = (r.below(2) as u64) << 63;
    Value::Double(match r.below(4) {
        0 | 1 => double_nan(r),
        2 => sign | 0x7ff0_0000_0000_0000 | 1 << r.below(52),
        _ => sign | 0x7ff0_0000_0000_0000 | (r.u64() & 0x000f_ffff_ffff_ffff).max(1),
    })
}

/// What becomes a NaN.
fn nan(r: &mut Rng) -> Value {
    match r.below(5) {
        0 => Value::text("NaN"),
        1 | 2 => nan_float(r),
        _ => nan_double(r),
    }
}

/// What becomes a NaN, or is next to one.
fn one(r: &mut Rng) -> Value {
    match r.below(10) {
        0..=4 => nan(r),
        5 => Value::Float(r.pick(FLOATS)),
        6 | 7 => Value::Double(r.pick(DOUBLES)),
        8 => text(r),
        _ => Value::Int(int(r)),
    }
}

/// The same as a part of a default.
fn part(r: &mut Rng) -> Value {
    match r.below(4) {
        0 => Value::Int(int(r)),
        1 => Value::Double(finite_double(r)),
        _ => text(r),
    }
}

/// An entry of a map that has others: one in three is neither a number nor a text.
fn entry(r: &mut Rng) -> Value {
    if r.percent(35) { r.pick(&[Value::Null, Value::Bool(true), Value::Bytes(vec![1])]) } else { one(r) }
}

/// A map of some entries.
fn entries(r: &mut Rng, one: impl Fn(&mut Rng) -> Value) -> Value {
    map_of((0..r.range(1, 5)).map(|_| (key(r), one(r))).collect())
}

/// A record of one field.
fn record(name: &str, v: Value) -> Value {
    Value::Record(vec![(name.into(), v)])
}

fn record_of(name: &str, default: Option<Value>, s: Schema) -> Schema {
    Schema::Record(vec![Field::new(name, default, s)])
}

// ---------------------------------------------------------------- where they meet

/// As the value itself; also in a Union, and in two, of which only one is peeled.
fn bare(r: &mut Rng, x: Schema) -> Case {
    let v = (0..12)
        .map(|_| match (one(r), r.below(8)) {
            (v, 0) => Value::union(1, v),
            (v, 1) => Value::union(0, Value::union(0, v)),
            (v, _) => v,
        })
        .collect();
    placed(r, x, v)
}

/// Under two to six levels of Arrays, Maps, Records and nullable pairs.
fn deep(r: &mut Rng, x: Schema) -> Case {
    let levels: Vec<usize> = (0..r.range(2, 6)).map(|_| r.below(4)).collect();
    let schema = |s, level: &usize| match level {
        0 => Schema::array(s),
        1 => Schema::map(s),
        2 => record_of("f", None, s),
        _ => record_of("f", None, union_of(vec![NULL, s])),
    };
    let value = |v, level: &usize| match level {
        0 => Value::Array(vec![v]),
        1 => Value::Map(vec![("k".into(), v)]),
        _ => record("f", v),
    };
    let v = (0..8).map(|_| levels.iter().fold(one(r), value)).collect();
    placed(r, levels.iter().fold(x, schema), v)
}

/// Against neither a Float nor a Double: refused for its kind, or a text like any other.
fn elsewhere(r: &mut Rng) -> Case {
    let s = r.pick(&[
        BOOLEAN,
        INT,
        LONG,
        BYTES,
        STRING,
        Schema::array(DOUBLE),
        Schema::Enum(vec!["NaN".into()], None),
        Schema::Fixed(3),
        Schema::Decimal(4, 0, None),
        Schema::UuidString,
        Schema::Plain(0x10),
        Schema::Plain(0x13),
    ]);
    let v = (0..8).map(|_| one(r)).collect();
    placed(r, s, v)
}

/// Under names that the schema lacks, or before the name comes again: nobody looks at it.
fn ignored(r: &mut Rng, x: Schema) -> Case {
    let s = record_of("a", None, r.pick(&[x, INT]));
    let v = (0..10)
        .map(|_| {
            let hidden = match r.below(4) {
                0 => Value::Array(vec![nan(r)]),
                1 => record("a", nan(r)),
                _ => nan(r),
            };
            let seen = if r.percent(75) { Value::Int(1) } else { one(r) };
            let mut items = vec![("a".to_string(), seen)];
            items.insert(r.below(2), (r.pick(&["b", "aa", ""]).to_string(), hidden));
            if r.percent(30) {
                items.insert(r.below(3), ("a".into(), nan(r)));
            }
            if r.percent(25) { map_of(items) } else { Value::Record(items) }
        })
        .collect();
    placed(r, s, v)
}

/// Records with and without the field, whose default is a text.
fn with_default(r: &mut Rng, field: Schema) -> Case {
    let s = record_of("a", Some(text(r)), field);
    let mut v = vec![Value::Record(vec![]), Value::Map(vec![])];
    v.extend((0..5).map(|_| record("a", one(r))));
    v.push(record("a", Value::Null));
    placed(r, s, v)
}

/// A default that is an Array, a Map, or a Map for a Record, by itself or of the first variant.
fn inner_default(r: &mut Rng, x: Schema, in_union: bool) -> Case {
    let (schema, default, given) = match r.below(3) {
        0 => {
            let items = (0..r.range(1, 3)).map(|_| part(r)).collect();
            (Schema::array(x), Value::Array(items), Value::Array(vec![one(r)]))
        }
        1 => (Schema::map(x), entries(r, part), entries(r, one)),
        _ => {
            let fields = vec![Field::new("x", None, x.clone()), Field::new("y", Some(text(r)), x)];
            let default = Value::Map(vec![("x".into(), part(r))]);
            (Schema::Record(fields), default, record("x", one(r)))
        }
    };
    let second = r.pick(&[NULL, STRING, INT]);
    let field = if in_union { union_of(vec![schema, second]) } else { schema };
    let s = record_of("a", Some(default), field);
    let v = vec![Value::Record(vec![]), Value::Map(vec![]), record("a", given), record("a", Value::Null)];
    placed(r, s, v)
}

/// Variants that may take what a Float or Double refuses, and the other one of these two.
fn others(r: &mut Rng, x: &Schema) -> Vec<Schema> {
    let mut others = vec![
        STRING,
        BYTES,
        INT,
        NULL,
        Schema::Enum(vec!["NaN".into(), "INF".into()], r.pick(&[None, Some("INF".into())])),
        Schema::Fixed(3),
        if *x == FLOAT { DOUBLE } else { FLOAT },
    ];
    r.shuffle(&mut others);
    others.truncate(r.range(1, 3));
    others
}

/// The default of a union field whose first variant is the Float or Double.
fn union_default(r: &mut Rng, x: Schema) -> Case {
    let mut variants = others(r, &x);
    variants.insert(0, x);
    let mut u = built(variants).0;
    if r.percent(40) {
        odd_tables(r, &mut u);
    }
    with_default(r, Schema::Union(u))
}

/// The default of a union field whose first variant keeps the text, but whose table leads a String to
/// the Float or Double: only the second resolution meets it.
fn kept_default(r: &mut Rng, x: Schema) -> Case {
    let kinds = if r.percent(70) { vec![(7, 1)] } else { vec![] };
    with_default(r, Schema::Union(Union { variants: vec![STRING, x, NULL], kinds, named: vec![] }))
}

/// Unions whose tables lead a Float, a Double and a String nowhere, most of the time: the first variant
/// that takes it.
fn trial(r: &mut Rng, x: Schema) -> Case {
    let mut variants = others(r, &x);
    variants.insert(0, x);
    if r.percent(30) {
        r.shuffle(&mut variants);
    }
    let mut u = built(variants).0;
    for kind in [4, 5, 7] {
        if r.percent(80) {
            lead(&mut u, kind, None);
        }
    }
    let v = (0..10).map(|_| one(r)).collect();
    placed(r, Schema::Union(u), v)
}

/// Named Records that are tried in turn, and a Map: one whose field refuses a NaN leaves the choice to the
/// next.
fn records(r: &mut Rng, x: Schema) -> Case {
    let other = if x == FLOAT { DOUBLE } else { FLOAT };
    let mut variants = vec![
        record_of("x", None, STRING),
        record_of("x", None, other),
        record_of("y", Some(Value::Int(1)), x.clone()),
        record_of("x", None, union_of(vec![NULL, x.clone()])),
        Schema::map(r.pick(&[x.clone(), STRING])),
    ];
    r.shuffle(&mut variants);
    variants.truncate(r.range(1, 3));
    variants.insert(0, record_of("x", None, x));
    let mut u = built(variants).0;
    if r.percent(30) {
        r.shuffle(&mut u.named);
    }
    let v = (0..10)
        .map(|_| match (one(r), r.percent(25)) {
            (v, true) => Value::Map(vec![("x".into(), v)]),
            (v, false) => record("x", v),
        })
        .collect();
    placed(r, Schema::Union(u), v)
}

/// Unions whose table leads all three kinds, or most, to the Float or Double: untried, so its refusal
/// stands.
fn led(r: &mut Rng, x: Schema) -> Case {
    let mut variants = others(r, &x);
    let at = r.below(variants.len() + 1);
    variants.insert(at, x);
    let mut u = built(variants).0;
    for kind in [4, 5, 7] {
        if r.percent(85) {
            lead(&mut u, kind, Some(at));
        }
    }
    let v = (0..10).map(|_| one(r)).collect();
    placed(r, Schema::Union(u), v)
}

/// Null and the Float or Double, in either order; the table may lead each of the three kinds there.
fn nullable(r: &mut Rng, x: Schema) -> Case {
    let at = r.below(2);
    let mut variants = vec![NULL];
    variants.insert(at, x);
    let mut u = built(variants).0;
    for kind in [4, 5, 7] {
        match r.below(3) {
            0 => lead(&mut u, kind, Some(at)),
            1 => lead(&mut u, kind, None),
            _ => {}
        }
    }
    with_default(r, Schema::Union(u))
}

/// Maps with several failing entries, as values and as a default.
fn failing(r: &mut Rng, x: Schema) -> Case {
    let way = r.below(4);
    let s = match way {
        0 => Schema::array(x),
        1 => record_of("x", None, x),
        2 => union_of(vec![NULL, x]),
        _ => x,
    };
    let inside = |v| match way {
        0 => Value::Array(vec![v]),
        1 => Value::Map(vec![("x".into(), v)]),
        _ => v,
    };
    let v: Vec<Value> = (0..10).map(|_| entries(r, |r| inside(entry(r)))).collect();
    if r.percent(70) {
        return placed(r, Schema::map(s), v);
    }
    let default = entries(r, |r| if r.percent(30) { inside(Value::Bool(true)) } else { inside(part(r)) });
    let v = v.into_iter().take(4).map(|v| record("a", v)).chain([Value::Record(vec![])]).collect();
    placed(r, record_of("a", Some(default), Schema::map(s)), v)
}

/// Maps and Arrays to which the kind table leads are tried: what fails in one, NaN or not, leaves the choice
/// to a later variant.
fn tried(r: &mut Rng, x: Schema) -> Case {
    let mut variants = vec![
        Schema::map(x.clone()),
        Schema::array(x.clone()),
        Schema::map(STRING),
        Schema::array(r.pick(&[STRING, BOOLEAN])),
        record_of("a", Some(Value::Int(1)), r.pick(&[LONG, STRING, x])),
    ];
    if r.percent(30) {
        r.shuffle(&mut variants);
    }
    variants.truncate(r.range(2, 5));
    let v = (0..10)
        .map(|_| {
            if r.percent(60) {
                entries(r, entry)
            } else {
                Value::Array((0..r.range(1, 3)).map(|_| entry(r)).collect())
            }
        })
        .collect();
    placed(r, union_of(variants), v)
}

// ---------------------------------------------------------------- number 4

/// A default of which the first variant makes about 4,096 bytes, unless it refuses a text in it: then it is
/// not measured.
fn measured(r: &mut Rng, x: Schema) -> Case {
    let number = if x == FLOAT { 5 } else { 9 };
    let (first, default) = if r.percent(50) {
        // a Record of two fields, each with a name of one letter; a text makes up the length
        let length = r.pick(&[4095, 4096, 4097, 5000]);
        let fill = "w".repeat(length - (3 + 3 + 3 + 3 + number));
        let fields = vec![Field::new("t", None, STRING), Field::new("x", None, x)];
        (Schema::Record(fields), Value::Map(vec![("t".into(), Value::Str(fill)), ("x".into(), text(r))]))
    } else {
        let n = 4096 / number + r.below(2);
        let mut items: Vec<Value> = (0..n).map(|_| Value::Int(int(r))).collect();
        items[r.below(n)] = text(r);
        (Schema::array(x), Value::Array(items))
    };
    let second = r.pick(&[STRING, BYTES, NULL]);
    under(r, default, vec![first, second])
}
