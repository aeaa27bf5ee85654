// Finds where in a schema a refusal arose: asks the library for each part whether it is sound.
use super::{Path, Step};
use crate::schema::{RecordField, Schema};
use crate::{Error, Refusal};

/// The error of a schema that the library refused: `ask` is the library, which tells of a part of
/// the schema what is wrong with it, if anything is.
pub(crate) fn refused_schema(
    schema: &Schema,
    refusal: Refusal,
    ask: impl FnMut(&Schema) -> Option<Refusal>,
) -> Error {
    let mut search = Search {
        ask,
        refusal,
        steps: Vec::new(),
    };
    search.descend(schema);
    Error::Refused {
        refusal,
        path: Path {
            steps: search.steps,
        },
        cause: None,
    }
}

struct Search<F> {
    ask: F,
    refusal: Refusal,
    /// From the root to where the search is.
    steps: Vec<Step>,
}

impl<F: FnMut(&Schema) -> Option<Refusal>> Search<F> {
    fn is_refused(&mut self, schema: &Schema) -> bool {
        (self.ask)(schema) == Some(self.refusal)
    }

    // Goes on to the first child that is refused for the same reason, if there is one.
    fn descend(&mut self, schema: &Schema) {
        match schema {
            Schema::Array(array) => self.child(Step::Items, &array.items),
            Schema::Map(map) => self.child(Step::Values, &map.types),
            Schema::Union(union) => {
                let mut variants = (0..).zip(union.variants());
                variants.any(|(i, variant)| self.child(Step::Variant(i), variant))
            }
            Schema::Record(record) => record.fields.iter().any(|field| self.field(field)),
            _ => false,
        };
    }

    fn child(&mut self, step: Step, schema: &Schema) -> bool {
        let refused = self.is_refused(schema);
        if refused {
            self.steps.push(step);
            self.descend(schema);
        }
        refused
    }

    // Of a field that is refused alone though its schema isn't, the default is.
    fn field(&mut self, field: &RecordField) -> bool {
        let name = Step::Field(field.name.clone());
        let refused = self.is_refused(&Schema::record(vec![field.clone()]));
        if refused && !self.child(name.clone(), &field.schema) {
            self.steps.extend([name, Step::Default]);
        }
        refused
    }
}
