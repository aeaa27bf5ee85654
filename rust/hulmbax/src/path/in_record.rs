// Finds where in a record a refusal arose: descends schema and value together, and asks the library
// for each part whether it takes that.
use super::{Path, Step};
use crate::schema::{RecordField, Schema, UnionSchema};
use crate::{Error, Refusal, Value};

/// The error of a record that the library refused: `ask` is the library, which tells of a part of
/// the schema and of the record what stops it, if anything does.
///
/// A refusal that isn't of the record's content has no place in it, and is the root's.
pub(crate) fn refused_record(
    schema: &Schema,
    record: &Value,
    refusal: Refusal,
    ask: impl FnMut(&Schema, &Value) -> Option<Refusal>,
) -> Error {
    if !refusal.is_of_content() {
        return refusal.into();
    }
    Search {
        ask,
        steps: Vec::new(),
    }
    .error(schema, record, refusal)
}

struct Search<F> {
    ask: F,
    /// From the root to where the search is.
    steps: Vec<Step>,
}

impl<F: FnMut(&Schema, &Value) -> Option<Refusal>> Search<F> {
    // The error of a part that was refused: that of the first of its children that is refused with
    // the same answer, or its own. So the answer that is told is always the library's.
    fn error(&mut self, schema: &Schema, value: &Value, refusal: Refusal) -> Error {
        let child = match (schema, peeled(value)) {
            (Schema::Record(record), Value::Record(_) | Value::Map(_)) => {
                self.in_fields(&record.fields, peeled(value), refusal)
            }
            (Schema::Array(_) | Schema::Bytes, Value::Array(items)) => {
                self.in_items(schema, items, refusal)
            }
            (Schema::Map(map), Value::Map(entries)) => entries.iter().find_map(|(key, entry)| {
                self.child(Step::Key(key.clone()), &map.types, entry, refusal)
            }),
            (Schema::Union(union), value) => self.in_union(union, value, refusal),
            _ => None,
        };
        child.unwrap_or_else(|| self.here(refusal, None))
    }

    fn here(&self, refusal: Refusal, cause: Option<Error>) -> Error {
        Error::Refused {
            refusal,
            path: Path {
                steps: self.steps.clone(),
            },
            cause: cause.map(Box::new),
        }
    }

    fn is_refused(&mut self, schema: &Schema, value: &Value, refusal: Refusal) -> bool {
        (self.ask)(schema, value) == Some(refusal)
    }

    fn child(
        &mut self,
        step: Step,
        schema: &Schema,
        value: &Value,
        refusal: Refusal,
    ) -> Option<Error> {
        let refused = self.is_refused(schema, value, refusal);
        refused.then(|| {
            self.steps.push(step);
            self.error(schema, value, refusal)
        })
    }

    // The schema is of an Array, or of Bytes, which an Array may stand for. The first item that is
    // refused is looked for by halves: to ask for each of thousands would take long.
    fn in_items(&mut self, schema: &Schema, items: &[Value], refusal: Refusal) -> Option<Error> {
        let (mut first, mut end) = (0, items.len());
        while end - first > 1 {
            let middle = first + (end - first) / 2;
            let half = Value::Array(items[first..middle].to_vec());
            match self.is_refused(schema, &half, refusal) {
                true => end = middle,
                false => first = middle,
            }
        }
        self.steps.push(Step::Index(first));
        match schema {
            Schema::Array(array) => Some(self.error(&array.items, items.get(first)?, refusal)),
            _ => Some(self.here(refusal, None)),
        }
    }

    // The schema's fields in order, each with the last value under its name.
    fn in_fields(
        &mut self,
        fields: &[RecordField],
        record: &Value,
        refusal: Refusal,
    ) -> Option<Error> {
        fields.iter().find_map(|field| {
            let name = Step::Field(field.name.clone());
            match record.get(&field.name) {
                Some(value) => self.child(name, &field.schema, value, refusal),
                None => self.missing(name, field, refusal),
            }
        })
    }

    // A field that the record lacks: whether its default is refused is asked of a record without
    // fields.
    fn missing(&mut self, name: Step, field: &RecordField, refusal: Refusal) -> Option<Error> {
        let alone = Schema::record(vec![field.clone()]);
        let refused = self.is_refused(&alone, &Value::Record(Vec::new()), refusal);
        refused.then(|| {
            self.steps.push(name);
            self.steps
                .extend(field.default.is_some().then_some(Step::Default));
            self.here(refusal, None)
        })
    }

    // `value` is what is left of the value once the one Union is off. A variant that the kind table
    // gives is taken untried, and its refusal is the union's. Any other is tried, and only if all
    // refuse, the union does; where there is one besides Null, that one is the cause.
    fn in_union(&mut self, union: &UnionSchema, value: &Value, refusal: Refusal) -> Option<Error> {
        if let Some(variant) = union.untried(value) {
            return Some(self.error(variant, value, refusal));
        }
        let mut others = union.variants().iter().filter(|s| **s != Schema::Null);
        let only = others.next().filter(|_| others.next().is_none());
        let cause = self.cause(only.filter(|_| *value != Value::Null)?, value)?;
        Some(self.here(refusal, Some(cause)))
    }

    fn cause(&mut self, variant: &Schema, value: &Value) -> Option<Error> {
        let refusal = (self.ask)(variant, value)?;
        let here = self.steps.len();
        let cause = self.error(variant, value, refusal);
        self.steps.truncate(here);
        Some(cause)
    }
}

// The value once one Union, if it is one, is off.
fn peeled(value: &Value) -> &Value {
    match value {
        Value::Union(_, inner) => inner,
        other => other,
    }
}
