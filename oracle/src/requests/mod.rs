//! The requests that change an answer of the crate, and which inputs each of them touches: for all
//! others the crate as it is remains the judge.
mod q06;
mod q10;

pub use q10::nan_in;

use crate::frame::{self, Field, NULL, Schema, Value};
use crate::meet::{Met, meet};
use crate::plain;

/// A request: its rule is a patch of the crate, its filter says which inputs the rule is about.
pub struct Request {
    pub name: &'static str,
    /// The file in folder patches.
    pub patch: &'static str,
    /// The generator's family that is made for it.
    pub family: &'static str,
    touches: Touches,
}

/// How it is known that a request touches an input.
enum Touches {
    /// A test of nodes that meet: whether they may get another answer than the crate's.
    Meeting(Test),
    /// The patched crate is watched while it runs: its patch sets a mark wherever the rule applies.
    Watched,
}

type Test = fn(&Met) -> bool;

pub const REQUESTS: &[Request] = &[
    Request { name: "Q-6", patch: "Q-06.patch", family: "sizes", touches: Touches::Meeting(q06::touches) },
    Request { name: "Q-10", patch: "Q-10.patch", family: "nans", touches: Touches::Watched },
];

/// A schema, and the requests that touch each value under it.
pub struct Filter {
    schema: Option<Schema>,
    always: Vec<bool>,
}

impl Filter {
    /// A schema that 2 or 3 stops is touched by none.
    pub fn new(schema: Option<&[u8]>) -> Self {
        let schema = schema.and_then(|b| frame::read_schema(b).ok()).filter(frame::schema_ok);
        let always = |r: &Request| match r.touches {
            Touches::Meeting(test) => schema.as_ref().is_some_and(|s| in_defaults(s, test)),
            Touches::Watched => false,
        };
        Filter { always: REQUESTS.iter().map(always).collect(), schema }
    }

    /// The names of the requests that touch a value frame; `marked` where the patched crate set its mark.
    pub fn touching(&self, value: Option<&[u8]>, marked: bool) -> Vec<&'static str> {
        let Some(schema) = &self.schema else { return vec![] };
        let value = value.and_then(|b| frame::read_value(b).ok());
        let touches = |(r, always): &(&Request, &bool)| match r.touches {
            Touches::Meeting(test) => {
                **always || value.as_ref().is_some_and(|v| in_value(v, schema, false, test))
            }
            Touches::Watched => marked,
        };
        REQUESTS.iter().zip(&self.always).filter(touches).map(|(r, _)| r.name).collect()
    }
}

/// Number 4 resolves the default of each union field against the first variant, whether a value
/// needs it or not; so one that is touched there touches every value, even one that 5 stops.
fn in_defaults(s: &Schema, test: Test) -> bool {
    match s {
        Schema::Array(s) | Schema::Map(s) => in_defaults(s, test),
        Schema::Union(u) => u.variants.iter().any(|s| in_defaults(s, test)),
        Schema::Record(fields) => fields.iter().any(|f| {
            let measured = match (&f.default, &f.schema) {
                (Some(d), Schema::Union(u)) if u.variants[0] != NULL => {
                    in_value(d, &u.variants[0], true, test)
                }
                _ => false,
            };
            measured || in_defaults(&f.schema, test)
        }),
        _ => false,
    }
}

/// Whether the request is about a pair that meets, from this one down. A union's every variant is met:
/// a trial counts as much as the variant that is taken.
fn in_value(v: &Value, s: &Schema, from_default: bool, test: Test) -> bool {
    let mut touched = false;
    meet(v, s, from_default, &mut |met| touched = touched || test(met) || anew(met, test));
    touched
}

/// The default of a union field that is missing: what the first variant makes of it meets the whole union
/// anew. The crate as it is makes it: where a request is about the first step, the answer is touched
/// anyhow.
fn anew(met: &Met, test: Test) -> bool {
    let (Value::Record(items) | Value::Map(items), Schema::Record(fields)) = (met.value, met.schema) else {
        return false;
    };
    let missing = |f: &&Field| items.iter().all(|(n, _)| *n != f.name);
    fields.iter().filter(missing).any(|f| {
        let (Some(d), Schema::Union(u)) = (&f.default, &f.schema) else { return false };
        let first = &u.variants[0];
        let made = if *first == NULL { Some(Value::Null) } else { plain::made(d, first) };
        made.is_some_and(|v| in_value(&Value::union(0, v), &f.schema, true, test))
    })
}
