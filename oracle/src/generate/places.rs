//! Where a schema and values for it can stand.
use super::random::Rng;
use super::schemas::union_of;
use super::values::map_of;
use super::{Case, case};
use crate::frame::{Field, NULL, STRING, Schema, Value};

/// The schema alone, as items, values, a field or the other side of a nullable pair.
pub fn placed(r: &mut Rng, s: Schema, v: Vec<Value>) -> Case {
    let entries = |v: &[Value]| v.iter().cloned().enumerate().map(|(i, v)| (format!("k{i}"), v)).collect();
    let (s, v) = match r.below(8) {
        0 => (Schema::array(s), v.chunks(2).map(|v| Value::Array(v.to_vec())).collect()),
        1 => (Schema::map(s), v.chunks(2).map(|v| map_of(entries(v))).collect()),
        2 => {
            let record = |v| Value::Record(vec![("r".into(), v)]);
            (Schema::Record(vec![Field::new("r", None, s)]), v.into_iter().map(record).collect())
        }
        3 if !matches!(s, Schema::Union(_)) => (union_of(vec![NULL, s]), v),
        _ => (s, v),
    };
    case(&s, &v)
}

// ---------------------------------------------------------------- number 4

/// Values under a record with a default that number 4 measures; one of them is no frame.
pub fn under(r: &mut Rng, default: Value, variants: Vec<Schema>) -> Case {
    let s = Schema::Record(vec![Field::new("a", Some(default), union_of(variants))]);
    let given = Value::Record(vec![("a".into(), Value::text("ab"))]);
    let (s, mut v) = placed(r, s, vec![Value::Record(vec![]), given, Value::Map(vec![]), Value::Null]);
    v.push(vec![0x1a]);
    (s, v)
}

/// A default with this text that becomes `length` bytes or more only where `x` refuses the text and leaves
/// the choice to a later variant.
pub fn grown(r: &mut Rng, x: Schema, text: String, length: usize) -> Case {
    let long = "z".repeat(length);
    let (variants, item) = if r.percent(50) {
        let field = |schema| Field::new("x", None, schema);
        let grows = Schema::Record(vec![field(STRING), Field::new("y", Some(Value::Str(long)), STRING)]);
        let item = Value::Map(vec![("x".into(), Value::Str(text))]);
        (vec![Schema::Record(vec![field(x)]), grows], item)
    } else {
        (vec![x, Schema::Enum(vec![long.clone()], Some(long))], Value::Str(text))
    };
    let first = Schema::array(union_of(variants));
    under(r, Value::Array(vec![item]), vec![first, STRING])
}
