//! Cases about Q-6: Strings of the right length, and just beside it, against Fixed and Decimal.
use super::Case;
use super::places::{grown, placed, under};
use super::random::Rng;
use super::scalars::text;
use super::schemas::{built, decimal, lead, odd_tables};
use crate::frame::{BYTES, Field, INT, NULL, STRING, Schema, Union, Value};
use crate::precision::needed;

/// How many ways `sizes` has.
pub const SIZES: usize = 17;

/// One of the ways.
pub fn any_sizes(r: &mut Rng) -> Case {
    let way = r.below(SIZES);
    sizes(r, way)
}

/// Strings against a Fixed or a Decimal, in one of the ways in which the two can meet.
pub fn sizes(r: &mut Rng, way: usize) -> Case {
    let x = if r.percent(50) {
        Schema::Fixed(r.pick(&[0, 1, 2, 3, 4, 5, 12, 16, 100]))
    } else if r.percent(60) {
        few_digits(r)
    } else {
        decimal(r)
    };
    match way {
        0..=2 => bare(r, x),
        3 | 4 => field_default(r, x),
        5 | 6 => union_default(r, x),
        7 => kept_default(r, x),
        8 | 9 => trial(r, x),
        10 | 11 => led(r, x),
        12 => nullable(r, x),
        13 => measured(r, 4094, 4),
        14 => {
            let bytes = r.range(4093, 4094);
            let size = r.pick(&[bytes as u16, 4093, 4094, 5000]);
            measured(r, bytes, size)
        }
        15 => {
            let text = of_bytes(r, 3);
            grown(r, Schema::Fixed(2), text, 5000)
        }
        _ => {
            let (bytes, length) = (r.range(2, 3), r.pick(&[3000, 5000]));
            let text = of_bytes(r, bytes);
            grown(r, Schema::Fixed(2), text, length)
        }
    }
}

/// A Decimal of a precision that one to four bytes hold; 12 and 13 at times.
fn few_digits(r: &mut Rng) -> Schema {
    let precision = r.pick(&[1, 2, 3, 4, 5, 6, 9]);
    let scale = r.pick(&[0, 0, 0, 0, 1, precision, precision + 1]);
    Schema::Decimal(precision, scale, r.pick(&[None, None, Some(1), Some(2), Some(4)]))
}

// ---------------------------------------------------------------- texts

fn text_for(r: &mut Rng, x: &Schema) -> String {
    match x {
        Schema::Fixed(n) => fixed_text(r, *n as usize),
        Schema::Decimal(p, ..) => decimal_text(r, *p),
        _ => text(r),
    }
}

/// Right by bytes, a byte short or long, or right by code points only.
fn fixed_text(r: &mut Rng, n: usize) -> String {
    match r.below(7) {
        0..=2 => of_bytes(r, n),
        3 => of_bytes(r, n + 1),
        4 => of_bytes(r, n.saturating_sub(1)),
        5 => (0..n).map(|_| r.pick(&['é', '日', '😀', 'a'])).collect(),
        _ => text(r),
    }
}

/// A text of so many bytes, of characters of one byte or of one to four.
fn of_bytes(r: &mut Rng, n: usize) -> String {
    let letters: &[char] =
        if r.percent(40) { &['a', 'Z', '0', '\u{7f}'] } else { &['a', 'é', 'Ā', '€', '日', '😀'] };
    let mut t = String::new();
    while t.len() < n {
        let c = r.pick(letters);
        if t.len() + c.len_utf8() <= n {
            t.push(c);
        }
    }
    t
}

/// Just enough code points for the precision, one too few, one more, or at the end of the table;
/// once in a while one of them is above 255.
fn decimal_text(r: &mut Rng, precision: u32) -> String {
    let need = needed(precision);
    let n = match r.below(7) {
        0 | 1 => need,
        2 | 3 => need.saturating_sub(1),
        4 => need + 1,
        5 => need + r.below(4),
        _ => r.pick(&[0, 127, 128, 129]),
    };
    let letters: &[char] =
        if r.percent(50) { &['\u{0}', 'a', '\u{7f}'] } else { &['a', '\u{80}', 'é', 'ÿ'] };
    let mut t: Vec<char> = (0..n).map(|_| r.pick(letters)).collect();
    if n > 0 && r.percent(12) {
        t[r.below(n)] = r.pick(&['Ā', '€', '😀']);
    }
    t.into_iter().collect()
}

// ---------------------------------------------------------------- where they meet

fn string(r: &mut Rng, x: &Schema) -> Value {
    Value::Str(text_for(r, x))
}

/// As the value itself; also in a Union, and in two, of which only one is peeled.
fn bare(r: &mut Rng, x: Schema) -> Case {
    let v = (0..12)
        .map(|_| match (string(r, &x), r.below(8)) {
            (t, 0) => Value::union(1, t),
            (t, 1) => Value::union(0, Value::union(0, t)),
            (Value::Str(t), 2) => Value::Bytes(t.into_bytes()),
            (t, _) => t,
        })
        .collect();
    placed(r, x, v)
}

/// Records with and without the field, whose default is a text.
fn with_default(r: &mut Rng, x: &Schema, field: Schema) -> Case {
    let s = Schema::Record(vec![Field::new("a", Some(string(r, x)), field)]);
    let mut v = vec![Value::Record(vec![]), Value::Map(vec![])];
    v.extend((0..4).map(|_| Value::Record(vec![("a".into(), string(r, x))])));
    v.push(Value::Record(vec![("a".into(), Value::Null)]));
    placed(r, s, v)
}

/// A field's default, bare or in an Array.
fn field_default(r: &mut Rng, x: Schema) -> Case {
    if r.percent(70) {
        return with_default(r, &x, x.clone());
    }
    let d = Value::Array((0..r.range(1, 3)).map(|_| string(r, &x)).collect());
    let s = Schema::Record(vec![Field::new("a", Some(d), Schema::array(x.clone()))]);
    let given = Value::Record(vec![("a".into(), Value::Array(vec![string(r, &x)]))]);
    placed(r, s, vec![Value::Record(vec![]), given])
}

/// Variants that may take the text where a Fixed or Decimal doesn't.
fn others(r: &mut Rng, x: &Schema) -> Vec<Schema> {
    let mut others = vec![
        STRING,
        BYTES,
        INT,
        NULL,
        Schema::Enum(vec!["ab".into(), "é".into()], Some("é".into())),
        Schema::Fixed(text_for(r, x).len() as u16),
        few_digits(r),
    ];
    r.shuffle(&mut others);
    others.truncate(r.range(1, 3));
    others
}

/// The default of a union field whose first variant is the Fixed or Decimal.
fn union_default(r: &mut Rng, x: Schema) -> Case {
    let mut variants = vec![x.clone()];
    variants.extend(others(r, &x));
    let mut u = built(variants).0;
    if r.percent(40) {
        odd_tables(r, &mut u);
    }
    with_default(r, &x, Schema::Union(u))
}

/// The default of a union field whose first variant keeps the text, but whose table leads a String to
/// the Fixed or Decimal: only the second resolution meets it.
fn kept_default(r: &mut Rng, x: Schema) -> Case {
    let kinds = if r.percent(70) { vec![(7, 1)] } else { vec![] };
    let u = Union { variants: vec![STRING, x.clone(), NULL], kinds, named: vec![1] };
    with_default(r, &x, Schema::Union(u))
}

/// Unions whose tables lead a String nowhere: the first variant that takes it.
fn trial(r: &mut Rng, x: Schema) -> Case {
    let mut variants = others(r, &x);
    variants.insert(0, x.clone());
    if r.percent(30) {
        r.shuffle(&mut variants);
    }
    let mut u = built(variants).0;
    lead(&mut u, 7, None);
    let v = (0..10).map(|_| string(r, &x)).collect();
    placed(r, Schema::Union(u), v)
}

/// Unions whose table leads a String to the Fixed or Decimal: untried, so its refusal stands.
fn led(r: &mut Rng, x: Schema) -> Case {
    let mut variants = others(r, &x);
    let at = r.below(variants.len() + 1);
    variants.insert(at, x.clone());
    let mut u = built(variants).0;
    lead(&mut u, 7, Some(at));
    let v = (0..10).map(|_| string(r, &x)).collect();
    placed(r, Schema::Union(u), v)
}

/// Null and the Fixed or Decimal, in either order; the table may lead a String there.
fn nullable(r: &mut Rng, x: Schema) -> Case {
    let at = r.below(2);
    let mut variants = vec![NULL];
    variants.insert(at, x.clone());
    let mut u = built(variants).0;
    if r.percent(50) {
        lead(&mut u, 7, Some(at));
    }
    with_default(r, &x, Schema::Union(u))
}

// ---------------------------------------------------------------- number 4

/// A text of so many bytes against a Fixed of this size: refused there, it is not measured. One of 4,093
/// bytes becomes a Fixed of 4,096.
fn measured(r: &mut Rng, bytes: usize, size: u16) -> Case {
    let d = Value::Str(of_bytes(r, bytes));
    let second = r.pick(&[STRING, BYTES, NULL]);
    under(r, d, vec![Schema::Fixed(size), second])
}
