//! Demand 3's words: what meets what, when a result fits, when values are alike.
use crate::frame::{NULL, Schema, Value};

fn peeled(v: &Value) -> &Value {
    match v {
        Value::Union(_, v) => v,
        v => v,
    }
}

/// A value node, once peeled, and the schema node that it meets.
pub struct Met<'a> {
    pub value: &'a Value,
    pub schema: &'a Schema,
    /// Whether the value stems from a default.
    pub from_default: bool,
}

/// Calls `f` for each pair that meets, from this one down.
pub fn meet(v: &Value, s: &Schema, from_default: bool, f: &mut dyn FnMut(&Met)) {
    let v = peeled(v);
    f(&Met { value: v, schema: s, from_default });
    match (v, s) {
        (v, Schema::Union(u)) => u.variants.iter().for_each(|s| meet(v, s, from_default, f)),
        (Value::Array(items), Schema::Array(s)) => items.iter().for_each(|v| meet(v, s, from_default, f)),
        (Value::Map(items), Schema::Map(s)) => items.iter().for_each(|(_, v)| meet(v, s, from_default, f)),
        (Value::Record(items) | Value::Map(items), Schema::Record(fields)) => {
            for field in fields {
                match (items.iter().rev().find(|(n, _)| *n == field.name), &field.default) {
                    (Some((_, v)), _) => meet(v, &field.schema, from_default, f),
                    (None, Some(d)) => meet_default(d, &field.schema, f),
                    (None, None) => {}
                }
            }
        }
        _ => {}
    }
}

fn meet_default(d: &Value, s: &Schema, f: &mut dyn FnMut(&Met)) {
    match s {
        Schema::Union(u) if u.variants[0] == NULL => {}
        Schema::Union(u) => meet(d, &u.variants[0], true, f),
        s => meet(d, s, true, f),
    }
}

/// "A result fits a schema when it matches it, with exactly the schema's field names in each
/// Record; only a Decimal's length need not be the stated size."
pub fn fits(v: &Value, s: &Schema) -> bool {
    match (v, s) {
        (Value::Union(i, v), Schema::Union(u)) => u.variants.get(*i as usize).is_some_and(|s| fits(v, s)),
        (Value::Array(items), Schema::Array(s)) => items.iter().all(|v| fits(v, s)),
        (Value::Map(items), Schema::Map(s)) => items.iter().all(|(_, v)| fits(v, s)),
        (Value::Record(items), Schema::Record(fields)) => {
            items.len() == fields.len()
                && items.iter().zip(fields).all(|((n, v), f)| *n == f.name && fits(v, &f.schema))
        }
        (Value::Enum(i, s), Schema::Enum(symbols, _)) => symbols.get(*i as usize) == Some(s),
        (Value::Fixed(b), Schema::Fixed(n)) => b.len() == *n as usize,
        (v, s) => v.kind() == s.kind(),
    }
}

/// The value without what stands under names that a Record schema it meets lacks. Values are
/// alike when this is the same of both.
pub fn trimmed(v: &Value, s: &Schema) -> Value {
    match v {
        Value::Union(i, v) => Value::Union(*i, Box::new(trimmed_peeled(v, s))),
        v => trimmed_peeled(v, s),
    }
}

fn trimmed_peeled(v: &Value, s: &Schema) -> Value {
    match (v, s) {
        (v, Schema::Union(u)) => u.variants.iter().fold(v.clone(), |v, s| trimmed(&v, s)),
        (Value::Array(items), Schema::Array(s)) => {
            Value::Array(items.iter().map(|v| trimmed(v, s)).collect())
        }
        (Value::Map(items), Schema::Map(s)) => {
            Value::Map(items.iter().map(|(k, v)| (k.clone(), trimmed(v, s))).collect())
        }
        (Value::Map(items), Schema::Record(_)) => Value::Map(trimmed_items(items, s)),
        (Value::Record(items), Schema::Record(_)) => Value::Record(trimmed_items(items, s)),
        (v, _) => v.clone(),
    }
}

/// Of equal names only the last is met, and so only it is trimmed further down.
fn trimmed_items(items: &[(String, Value)], s: &Schema) -> Vec<(String, Value)> {
    let Schema::Record(fields) = s else { unreachable!() };
    let mut kept = vec![];
    for (i, (name, v)) in items.iter().enumerate() {
        if let Some(f) = fields.iter().find(|f| f.name == *name) {
            let last = items[i + 1..].iter().all(|(n, _)| n != name);
            kept.push((name.clone(), if last { trimmed(v, &f.schema) } else { v.clone() }));
        }
    }
    kept
}
