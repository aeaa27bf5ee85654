//! Families of cases about resolution itself.
use super::random::Rng;
use super::scalars::*;
use super::schemas::*;
use super::values::*;
use super::{Case, VALUES, case, many};
use crate::frame::{BYTES, DOUBLE, FLOAT, Field, INT, LONG, NULL, STRING, Schema, Union, Value};
use crate::precision::needed;

/// Any schema of a few levels, with values that mostly suit it.
pub fn general(r: &mut Rng) -> Case {
    let d = r.range(2, 5);
    let s = schema(r, d, PLAIN);
    let v = many(r, &s, VALUES, PLAIN);
    case(&s, &v)
}

/// One kind of schema, every kind of value.
pub fn kinds(r: &mut Rng) -> Case {
    let s = if r.percent(80) { leaf(r) } else { schema(r, 2, PLAIN) };
    let v = (0..VALUES)
        .map(|_| if r.percent(55) { any(r, 3) } else { value(r, &s, 4, PLAIN) })
        .collect::<Vec<_>>();
    case(&s, &v)
}

/// Values that have both a kind in the table and a named search.
pub fn both(r: &mut Rng) -> Case {
    let mut variants = vec![];
    for _ in 0..r.range(2, 5) {
        let x = match r.below(12) {
            0 => BYTES,
            1 => STRING,
            2 => Schema::UuidString,
            3 => Schema::UuidBytes,
            4 => Schema::UuidFixed(16),
            5 => Schema::Fixed(r.pick(&[2, 16])),
            6 => Schema::Decimal(r.pick(&[1, 4, 30]), 0, None),
            7 => r.pick(&[
                Schema::Decimal(1, 0, Some(1)),
                Schema::Decimal(4, 0, Some(2)),
                Schema::Decimal(4, 1, Some(16)),
                Schema::Decimal(30, 0, Some(16)),
                Schema::Decimal(2, 3, Some(4)),
            ]),
            8 => Schema::map(leaf(r)),
            9 | 10 => record(r, 2, How { default: 60, ..PLAIN }),
            _ => Schema::Duration(12),
        };
        let mut all = variants.clone();
        all.push(x.clone());
        if built(all).1 {
            variants.push(x);
        }
    }
    let (mut u, _) = built(variants);
    if r.percent(50) {
        odd_tables(r, &mut u);
    } else if r.percent(40) {
        r.shuffle(&mut u.named);
    }
    let h = How { wrong: 3, wrap: 5, ..PLAIN };
    let s = Schema::Union(u.clone());
    let v = (0..VALUES)
        .map(|_| match r.below(6) {
            0 => Value::Decimal({
                let n = r.pick(&[0, 1, 2, 16]);
                r.bytes(n)
            }),
            1 => Value::Uuid(r.bytes(16).try_into().unwrap()),
            2 => {
                let i = r.below(u.variants.len());
                match value(r, &u.variants[i], 4, h) {
                    Value::Record(items) => map_of(items),
                    v => v,
                }
            }
            3 => {
                let n = r.below(3);
                map_of((0..n).map(|_| (r.pick(NAMES).to_string(), any(r, 1))).collect())
            }
            _ => value(r, &s, 4, h),
        })
        .collect::<Vec<_>>();
    case(&s, &v)
}

/// Long to Int, items to bytes, bytes to text: bare, in items, fields and unions.
pub fn narrow(r: &mut Rng) -> Case {
    let x = Schema::Plain(r.pick(&[2u8, 6, 7]));
    let s = match r.below(6) {
        0 => Schema::array(x.clone()),
        1 => Schema::map(x.clone()),
        2 => Schema::Record(vec![Field::new(
            "a",
            Some(Value::Array(vec![Value::Int(r.below(300) as i32)])),
            x.clone(),
        )]),
        3 => {
            // the table leads there untried
            let k = r.pick(&[3u8, 6, 7, 0x0a]);
            let mut u = Union {
                variants: vec![NULL, x.clone(), Schema::array(INT)],
                kinds: vec![(k, 1)],
                named: vec![],
            };
            if r.percent(50) && k < 8 {
                u.kinds.push((8, r.pick(&[1u16, 2])));
            }
            Schema::Union(u)
        }
        _ => x.clone(),
    };
    let one = |r: &mut Rng| {
        let v = match x {
            Schema::Plain(2) => Value::Long(if r.percent(70) { long(r) } else { int(r) as i64 }),
            Schema::Plain(6) => {
                let n = r.below(4);
                Value::Array(
                    (0..n)
                        .map(|_| match r.below(12) {
                            0 => Value::Int(r.pick(&[0, 255, 256, -1, i32::MIN, i32::MAX])),
                            1 => Value::Long(r.pick(&[0, 255, 256, -1, 1 << 31, 1 << 40])),
                            2 => any(r, 1),
                            3 => Value::union(0, Value::Long(r.pick(&[7, 256]))),
                            _ => Value::Int(r.below(256) as i32),
                        })
                        .collect(),
                )
            }
            _ => {
                let b = utf8_or_not(r);
                if r.percent(50) { Value::Fixed(b) } else { Value::Bytes(b) }
            }
        };
        if r.percent(15) { Value::union(r.below(3) as u32, v) } else { v }
    };
    let v = (0..VALUES)
        .map(|_| match &s {
            Schema::Array(_) => {
                let n = r.range(1, 4);
                Value::Array((0..n).map(|_| one(r)).collect())
            }
            Schema::Map(_) => {
                let n = r.range(1, 4);
                map_of((0..n).map(|_| (key(r), one(r))).collect())
            }
            Schema::Record(_) => {
                if r.percent(15) {
                    Value::Map(vec![])
                } else {
                    Value::Record(vec![("a".into(), one(r))])
                }
            }
            Schema::Union(_) if r.percent(40) => Value::union(1, one(r)),
            _ => one(r),
        })
        .collect::<Vec<_>>();
    case(&s, &v)
}

/// Numbers to Float and Double: rounding, overflow, signed zeros.
pub fn floats(r: &mut Rng) -> Case {
    let s = Schema::Plain(r.pick(&[4u8, 4, 5]));
    let v = (0..VALUES)
        .map(|_| match r.below(5) {
            0 => Value::Int(int(r)),
            1 | 2 => Value::Long(long(r)),
            3 => Value::Double(double(r)),
            _ => Value::Float(float(r)),
        })
        .collect::<Vec<_>>();
    case(&s, &v)
}

/// Float and Double side by side, also behind unions and in arrays.
pub fn nan(r: &mut Rng) -> Case {
    let x = r.pick(&[4u8, 5]);
    let inner = Schema::Plain(x);
    let s = match r.below(4) {
        0 => inner,
        1 => Schema::array(inner),
        2 => union_of(vec![NULL, inner]),
        _ => Schema::Record(vec![
            Field::new("a", Some(Value::text("NaN")), FLOAT),
            Field::new("b", Some(Value::text("NaN")), union_of(vec![DOUBLE, NULL])),
            Field::new("c", None, Schema::array(Schema::Plain(x))),
        ]),
    };
    let one = |r: &mut Rng| match r.below(5) {
        0 => Value::text("NaN"),
        1 | 2 => Value::Float(float_nan(r)),
        _ => Value::Double(double_nan(r)),
    };
    let v = (0..VALUES)
        .map(|_| match &s {
            Schema::Array(_) => Value::Array((0..4).map(|_| one(r)).collect()),
            Schema::Record(_) => {
                let mut items = vec![];
                if r.percent(60) {
                    items.push(("a".to_string(), one(r)));
                }
                if r.percent(60) {
                    items.push(("b".to_string(), one(r)));
                }
                items.push(("c".to_string(), Value::Array((0..3).map(|_| one(r)).collect())));
                Value::Record(items)
            }
            _ => one(r),
        })
        .collect::<Vec<_>>();
    case(&s, &v)
}

/// Unions with the tables that the crate's builder makes.
pub fn unions(r: &mut Rng) -> Case {
    unions_of(r, How { odd: 0, wrap: 12, ..PLAIN })
}

/// Unions with other tables.
pub fn oddunions(r: &mut Rng) -> Case {
    unions_of(r, How { odd: 100, wrap: 12, ..PLAIN })
}

fn unions_of(r: &mut Rng, h: How) -> Case {
    let d = r.range(2, 3);
    let mut s = union(r, d, h);
    if r.percent(25) {
        s = match r.below(3) {
            0 => Schema::array(s),
            1 => Schema::map(s),
            _ => Schema::Record(vec![Field::new("a", None, s)]),
        };
    }
    let v =
        (0..VALUES).map(|_| if r.percent(35) { any(r, 4) } else { value(r, &s, 8, h) }).collect::<Vec<_>>();
    case(&s, &v)
}

/// Records, arrays and maps as variants; several named variants that are tried in turn.
pub fn nested(r: &mut Rng) -> Case {
    let h = How { wrong: 5, odd: 40, ..PLAIN };
    let mut variants = vec![];
    for _ in 0..r.range(2, 4) {
        let x = match r.below(5) {
            0 => Schema::array(schema(r, 2, h)),
            1 => Schema::map(schema(r, 2, h)),
            2 => leaf(r),
            _ => record(r, 3, h),
        };
        let mut all = variants.clone();
        all.push(x.clone());
        if built(all).1 {
            variants.push(x);
        }
    }
    if variants.is_empty() {
        variants.push(STRING);
    }
    let (mut u, _) = built(variants);
    if r.percent(h.odd) {
        odd_tables(r, &mut u);
    }
    let s = Schema::Union(u);
    let v = many(r, &s, VALUES, h);
    case(&s, &v)
}

/// Fields with defaults, most of them unions.
pub fn defaults(r: &mut Rng) -> Case {
    let h = How { default: 100, odd: 45, wrong: 1, ..PLAIN };
    let mut fields = vec![];
    for i in 0..r.range(1, 4) {
        let schema = match r.below(6) {
            0..=2 => union(r, 3, h),
            3 => enumeration(r),
            4 => record(r, 3, h),
            _ => schema(r, 3, h),
        };
        let default = if r.percent(90) { Some(default_for(r, &schema, h)) } else { None };
        fields.push(Field::new(&format!("f{i}"), default, schema));
    }
    let mut s = Schema::Record(fields);
    if r.percent(20) {
        s = Schema::array(s);
    }
    let v = many(r, &s, VALUES, h);
    case(&s, &v)
}

/// A String default in Bytes, Fixed, Decimal and String, straight and as first variant.
pub fn bytedefault(r: &mut Rng) -> Case {
    let t: String =
        (0..r.below(5)).map(|_| r.pick(&['a', 'ÿ', 'é', '\u{80}', '\u{7f}', 'Ā', '\u{0}'])).collect();
    let mut fields = vec![];
    for (i, x) in
        [BYTES, Schema::Fixed(2), Schema::Decimal(1, 0, None), STRING, Schema::Fixed(t.len() as u16)]
            .into_iter()
            .enumerate()
    {
        if r.percent(if i == 0 { 80 } else { 40 }) {
            let d = if r.percent(80) {
                Value::Str(t.clone())
            } else {
                Value::Array(t.bytes().map(|b| Value::Int(b as i32)).collect())
            };
            let d = if r.percent(15) { Value::Array(vec![d]) } else { d };
            let schema = match r.below(3) {
                0 => union_of(vec![x, NULL]),
                _ => x,
            };
            let schema = if let Value::Array(a) = &d
                && matches!(a.first(), Some(Value::Str(_) | Value::Array(_)))
                && !matches!(schema, Schema::Union(_))
            {
                Schema::array(schema)
            } else {
                schema
            };
            fields.push(Field::new(&format!("f{i}"), Some(d), schema));
        }
    }
    let s = Schema::Record(fields);
    let h = How { wrong: 0, wrap: 5, ..PLAIN };
    let mut v = vec![Value::Record(vec![]), Value::Map(vec![])];
    v.extend((0..6).map(|_| value(r, &s, 4, h)));
    case(&s, &v)
}

/// Symbols: known, unknown, taken from the default; Strings and Enums.
pub fn enums(r: &mut Rng) -> Case {
    let e = enumeration(r);
    let s = match r.below(3) {
        0 => Schema::Record(vec![Field::new(
            "e",
            if r.percent(70) {
                Some(Value::Str(r.pick(&["A", "B", "unknown", "é"]).to_string()))
            } else {
                Some(any_default(r, 2))
            },
            e,
        )]),
        _ => e,
    };
    let v = (0..VALUES)
        .map(|_| match (&s, r.below(4)) {
            (Schema::Record(_), 0) => Value::Record(vec![]),
            (Schema::Record(_), _) => Value::Record(vec![(
                "e".into(),
                Value::Str(r.pick(&["A", "B", "C", "D", "é", "red", "", "Q"]).to_string()),
            )]),
            (_, 0) => Value::Str(r.pick(&["A", "B", "C", "D", "é", "red", "", "Q"]).to_string()),
            (_, 1) => any(r, 2),
            _ => Value::Enum(
                r.u64() as u32 & 0xf,
                r.pick(&["A", "B", "C", "D", "é", "red", "", "Q"]).to_string(),
            ),
        })
        .collect::<Vec<_>>();
    case(&s, &v)
}

/// Precision, scale, size, and bytes around the length that the precision needs.
pub fn decimals(r: &mut Rng) -> Case {
    let s = decimal(r);
    let Schema::Decimal(p, _, _) = s else { unreachable!() };
    let v = (0..VALUES)
        .map(|_| {
            let need = needed(p);
            let len = match r.below(3) {
                0 => r.pick(&[0usize, 1, 2, 127, 128, 129, 130]),
                1 => need,
                _ => (need + 1).saturating_sub(r.below(3)),
            };
            let b = match r.below(4) {
                0 => vec![if r.percent(50) { 0 } else { 0xff }; len],
                1 => {
                    let mut b = vec![0; len];
                    if len > 0 {
                        b[0] = 0x80;
                    }
                    b
                }
                _ => r.bytes(len),
            };
            match r.below(8) {
                0 | 1 => Value::Bytes(b),
                2 => Value::Fixed(b),
                3 => Value::Str(b.into_iter().map(|x| x as char).collect()),
                4 => Value::Str(text(r)),
                5 => any(r, 2),
                _ => Value::Decimal(b),
            }
        })
        .collect::<Vec<_>>();
    case(&s, &v)
}

/// UUID text in every form and near to one, and bytes around 16.
pub fn uuid(r: &mut Rng) -> Case {
    let s = r.pick(&[
        Schema::UuidString,
        Schema::UuidString,
        Schema::UuidString,
        Schema::UuidBytes,
        Schema::UuidFixed(16),
    ]);
    let v = (0..VALUES)
        .map(|_| match r.below(10) {
            0 => Value::Uuid(r.bytes(16).try_into().unwrap()),
            1 => {
                let n = r.pick(&[0, 15, 16, 17]);
                Value::Bytes(r.bytes(n))
            }
            2 => {
                let n = r.pick(&[0, 15, 16, 17]);
                Value::Fixed(r.bytes(n))
            }
            3 => Value::Str(
                r.pick(&["0123456789abcdef", "éééééééé", "0123456789abcde", "", "éééééééééééééééé"])
                    .to_string(),
            ),
            4 => any(r, 2),
            5 | 6 => Value::Str(near_uuid(r)),
            _ => Value::Str(uuid_text(r)),
        })
        .collect::<Vec<_>>();
    case(&s, &v)
}

/// Names that stand several times in a value record: the last counts.
pub fn names(r: &mut Rng) -> Case {
    let h = How { wrong: 1, default: 20, ..PLAIN };
    let Schema::Record(mut fields) = record(r, 2, h) else { unreachable!() };
    if fields.is_empty() {
        fields.push(Field::new("a", None, LONG));
    }
    let s = Schema::Record(fields.clone());
    let v = (0..VALUES)
        .map(|_| {
            let mut items = vec![];
            for f in &fields {
                for _ in 0..r.range(1, 3) {
                    let v = if r.percent(35) { any(r, 2) } else { value(r, &f.schema, 3, h) };
                    items.push((f.name.clone(), v));
                }
                items.push((f.name.clone(), value(r, &f.schema, 3, h)));
            }
            if r.percent(40) {
                r.shuffle(&mut items);
            }
            if r.percent(25) { map_of(items) } else { Value::Record(items) }
        })
        .collect::<Vec<_>>();
    case(&s, &v)
}

/// Several faults at once: the first met counts.
pub fn order(r: &mut Rng) -> Case {
    let h = How { wrong: 20, wrap: 10, default: 30, ..PLAIN };
    let mut fields = vec![];
    for i in 0..r.range(2, 6) {
        let schema = match r.below(5) {
            0 => decimal(r),
            1 => Schema::array(leaf(r)),
            2 => enumeration(r),
            _ => leaf(r),
        };
        let default = if r.percent(30) { Some(any_default(r, 2)) } else { None };
        fields.push(Field::new(&format!("f{i}"), default, schema));
    }
    let s = Schema::Record(fields.clone());
    let v = (0..VALUES)
        .map(|_| {
            let mut items: Vec<(String, Value)> =
                fields.iter().map(|f| (f.name.clone(), value(r, &f.schema, 4, h))).collect();
            if r.percent(30) {
                items.remove(r.below(items.len()));
            }
            r.shuffle(&mut items);
            Value::Record(items)
        })
        .collect::<Vec<_>>();
    case(&s, &v)
}

/// Records whose unions are nullable pairs, as in demand 3.
pub fn pairs(r: &mut Rng) -> Case {
    let h = How { pairs: true, odd: 30, wrong: 1, ..PLAIN };
    let s = record(r, 4, h);
    let v = many(r, &s, VALUES, h);
    case(&s, &v)
}

/// Maps of several failing entries: the number of the first in key order.
pub fn maps(r: &mut Rng) -> Case {
    let h = How { wrong: 12, wrap: 5, ..PLAIN };
    let x = match r.below(9) {
        0 => Schema::Enum(vec!["A".into(), "B".into()], None),
        1 => Schema::Decimal(4, r.pick(&[0, 0, 5]), None),
        2 => Schema::UuidString,
        3 => BYTES,
        4 => STRING,
        5 => INT,
        6 => Schema::UuidBytes,
        7 => r.pick(&[Schema::UuidFixed(16), Schema::Duration(12), Schema::Fixed(2)]),
        _ => schema(r, 3, h),
    };
    let x = match r.below(6) {
        0 => Schema::array(x),
        1 => Schema::Record(vec![Field::new("a", None, x)]),
        2 if !matches!(x, Schema::Union(_)) => union_of(vec![NULL, x]),
        _ => x,
    };
    let bad = How { wrong: 40, ..h };
    let entries = |r: &mut Rng, s: &Schema| {
        let n = r.range(1, 5);
        let one = |r: &mut Rng| {
            let h = if r.percent(50) { bad } else { h };
            value(r, s, 5, h)
        };
        map_of((0..n).map(|_| (key(r), one(r))).collect())
    };
    let m = Schema::map(x.clone());
    let way = r.below(7);
    let s = match way {
        0 => Schema::map(m),
        1 => Schema::array(m),
        2 => union_of(vec![m]),
        // a default in a union field, refused by the first variant, entry by entry
        3 => {
            let d = entries(r, &x);
            Schema::Record(vec![Field::new("zzz", Some(jsonable(r, d)), union_of(vec![m]))])
        }
        4 => {
            let d = entries(r, &x);
            Schema::Record(vec![Field::new("zzz", Some(jsonable(r, d)), m)])
        }
        _ => m,
    };
    let v = (0..VALUES)
        .map(|_| match way {
            0 => {
                let n = r.range(1, 3);
                map_of((0..n).map(|_| (key(r), entries(r, &x))).collect())
            }
            1 => {
                let n = r.range(1, 3);
                Value::Array((0..n).map(|_| entries(r, &x)).collect())
            }
            3 | 4 => {
                if r.percent(40) {
                    Value::Record(vec![])
                } else {
                    Value::Record(vec![("zzz".into(), entries(r, &x))])
                }
            }
            _ => entries(r, &x),
        })
        .collect::<Vec<_>>();
    case(&s, &v)
}

/// Texts, bytes and byte items, UTF-8 or not, into what takes them.
pub fn texts(r: &mut Rng) -> Case {
    let s = r.pick(&[
        BYTES,
        BYTES,
        STRING,
        STRING,
        Schema::Fixed(2),
        Schema::Fixed(0),
        FLOAT,
        DOUBLE,
        Schema::UuidFixed(16),
        Schema::Decimal(2, 1, None),
        Schema::Decimal(2, 0, Some(1)),
    ]);
    let v = (0..VALUES)
        .map(|_| match r.below(6) {
            0 => Value::Bytes(utf8_or_not(r)),
            1 => Value::Fixed(utf8_or_not(r)),
            2 | 3 => Value::Str(text(r)),
            4 => {
                let n = r.below(4);
                Value::Array(
                    (0..n)
                        .map(|_| match r.below(9) {
                            0 => Value::Int(r.pick(&[0, 255, 256, -1])),
                            1 => Value::Long(r.pick(&[0, 255, 256, -1, 1 << 40])),
                            2 => any(r, 1),
                            3 => Value::union(0, Value::Int(7)),
                            4 => Value::union(0, Value::union(0, Value::Int(7))),
                            _ => Value::Int(r.below(256) as i32),
                        })
                        .collect(),
                )
            }
            _ => Value::Str(r.pick(WORDS).to_string()),
        })
        .collect::<Vec<_>>();
    case(&s, &v)
}

/// How many schemas `grid` has.
pub const GRID: usize = 32;

/// One schema of the grid.
pub fn any_of_grid(r: &mut Rng) -> Case {
    let k = r.below(GRID);
    grid(r, k)
}

/// Every kind of value, bare, in one Union and in two, against the k-th of these schemas.
pub fn grid(r: &mut Rng, k: usize) -> Case {
    let s = match k {
        k @ 0..=0x19 => match k as u8 {
            8 => Schema::array(leaf(r)),
            9 => Schema::map(leaf(r)),
            0x0a => union(r, 2, PLAIN),
            0x0b => record(r, 2, PLAIN),
            0x0c => enumeration(r),
            0x0d => Schema::Fixed(r.pick(&[2, 4, 12, 16])),
            0x0e => decimal(r),
            0x0f => Schema::UuidString,
            0x19 => Schema::Duration(12),
            k => Schema::Plain(k),
        },
        26 => Schema::UuidBytes,
        27 => Schema::UuidFixed(16),
        28 => decimal(r),
        29 => BYTES,
        30 => STRING,
        _ => INT,
    };
    let mut v = vec![];
    for k in 0..=0x19u8 {
        let x = of_kind(r, k);
        v.push(match r.below(4) {
            0 => Value::union(1, x),
            _ => x,
        });
    }
    let x = value(r, &s, 3, How { wrong: 0, wrap: 0, ..PLAIN });
    v.push(Value::union(0, Value::union(0, x)));
    case(&s, &v)
}
