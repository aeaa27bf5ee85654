//! Values that are alike in the sense of demand 3.
use super::random::Rng;
use super::schemas::{How, record, schema};
use super::values::{any, map_of, value};
use crate::frame::{NULL, Schema, Union, Value};

/// Puts in, takes away or changes what stands under names that the schema lacks.
fn alike(r: &mut Rng, v: &Value, s: &Schema) -> Value {
    match (v, s) {
        (Value::Union(i, v), Schema::Union(u)) => {
            // one is peeled here; against the variant again one
            Value::union(*i, alike_variants(r, v, u))
        }
        (v, Schema::Union(u)) => alike_variants(r, v, u),
        (Value::Union(i, v), s) => Value::union(*i, alike_node(r, v, s)),
        (v, s) => alike_node(r, v, s),
    }
}

fn alike_variants(r: &mut Rng, v: &Value, u: &Union) -> Value {
    // a nullable pair: only the variant that isn't Null can be met by anything with names
    match u.variants.iter().find(|s| **s != NULL) {
        Some(s) => alike(r, v, s),
        None => v.clone(),
    }
}

fn alike_node(r: &mut Rng, v: &Value, s: &Schema) -> Value {
    match (v, s) {
        (Value::Array(items), Schema::Array(i)) => {
            Value::Array(items.iter().map(|v| alike(r, v, i)).collect())
        }
        (Value::Map(items), Schema::Map(m)) => {
            Value::Map(items.iter().map(|(k, v)| (k.clone(), alike(r, v, m))).collect())
        }
        (Value::Record(items) | Value::Map(items), Schema::Record(fields)) => {
            let mut out: Vec<(String, Value)> = vec![];
            for (i, (k, v)) in items.iter().enumerate() {
                match fields.iter().find(|f| f.name == *k) {
                    None => match r.below(3) {
                        0 => {}
                        1 => out.push((k.clone(), any(r, 2))),
                        _ => out.push((k.clone(), v.clone())),
                    },
                    Some(f) => {
                        let last = !items[i + 1..].iter().any(|(n, _)| n == k);
                        out.push((k.clone(), if last { alike(r, v, &f.schema) } else { v.clone() }));
                    }
                }
            }
            while r.percent(40) {
                let name = r.pick(&["x0", "x1", "x7", "extra", "~", "0"]).to_string();
                if fields.iter().all(|f| f.name != name) && out.iter().all(|(n, _)| *n != name) {
                    out.insert(r.below(out.len() + 1), (name, any(r, 2)));
                }
            }
            match v {
                Value::Map(_) => map_of(out),
                _ => Value::Record(out),
            }
        }
        _ => v.clone(),
    }
}

/// Takes the entries for kind 00 out of all kind tables; the unions are still nullable pairs.
fn without_null_entries(s: &mut Schema) {
    match s {
        Schema::Array(s) | Schema::Map(s) => without_null_entries(s),
        Schema::Record(fields) => fields.iter_mut().for_each(|f| without_null_entries(&mut f.schema)),
        Schema::Union(u) => {
            u.kinds.retain(|e| e.0 != 0);
            u.variants.iter_mut().for_each(without_null_entries);
        }
        _ => {}
    }
}

/// A schema whose unions are all nullable pairs, and pairs of values that are alike under it.
pub struct Alike {
    pub schema: Schema,
    pub pairs: Vec<(Value, Value)>,
}

/// Cases for demand 3, without end.
pub fn alike_cases(seed: u64) -> impl Iterator<Item = Alike> {
    let mut r = Rng::new(seed ^ 0x3333);
    std::iter::from_fn(move || {
        let h = How { pairs: true, odd: 30, wrong: r.pick(&[0, 0, 1, 4]), wrap: 6, default: 45 };
        let d = r.range(2, 5);
        let mut schema = if r.percent(75) { record(&mut r, d, h) } else { schema(&mut r, d, h) };
        if r.percent(20) {
            without_null_entries(&mut schema);
        }
        let mut pair = || {
            let a = value(&mut r, &schema, 14, h);
            let b = alike(&mut r, &a, &schema);
            (a, b)
        };
        let pairs = (0..10).map(|_| pair()).collect();
        Some(Alike { schema, pairs })
    })
}
