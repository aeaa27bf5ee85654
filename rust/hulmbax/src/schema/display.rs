// A schema in words.
use super::{EnumSchema, InnerDecimalSchema, RecordField, Schema, UuidSchema};
use crate::words::{list, Name, Quoted};
use std::fmt::{Display, Formatter, Result};

/// In words and on one line; what has several parts stands in parentheses within another.
impl Display for Schema {
    fn fmt(&self, f: &mut Formatter<'_>) -> Result {
        match self {
            Schema::Array(array) => write!(f, "Array of {}", Within(&array.items)),
            Schema::Map(map) => write!(f, "Map of {}", Within(&map.types)),
            Schema::Union(union) => match union.variants().split_first() {
                None => write!(f, "Union of nothing"),
                Some((first, rest)) => {
                    Within(first).fmt(f)?;
                    rest.iter().try_for_each(|s| write!(f, " or {}", Within(s)))
                }
            },
            Schema::Record(record) => {
                write!(f, "Record of ")?;
                list(f, record.fields.iter())
            }
            Schema::Enum(symbols) => symbols.fmt(f),
            Schema::Fixed(fixed) => write!(f, "Fixed of {} bytes", fixed.size),
            Schema::Decimal(decimal) => {
                let (precision, scale) = (decimal.precision, decimal.scale);
                write!(f, "Decimal of precision {precision} and scale {scale} in ")?;
                match decimal.inner {
                    InnerDecimalSchema::Bytes => write!(f, "bytes"),
                    InnerDecimalSchema::Fixed(fixed) => write!(f, "{} bytes", fixed.size),
                }
            }
            Schema::Uuid(UuidSchema::Bytes) => write!(f, "Uuid in bytes"),
            Schema::Uuid(UuidSchema::String) => write!(f, "Uuid in text"),
            Schema::Uuid(UuidSchema::Fixed(fixed)) => write!(f, "Uuid in {} bytes", fixed.size),
            Schema::Duration(_) => write!(f, "Duration"),
            // the others have no content, and are shown as they are named
            other => write!(f, "{other:?}"),
        }
    }
}

impl Display for EnumSchema {
    fn fmt(&self, f: &mut Formatter<'_>) -> Result {
        write!(f, "Enum of ")?;
        list(f, self.symbols.iter().map(|symbol| Quoted(symbol)))?;
        match &self.default {
            None => Ok(()),
            Some(symbol) => write!(f, " (default {})", Quoted(symbol)),
        }
    }
}

/// The name, the schema and the default.
impl Display for RecordField {
    fn fmt(&self, f: &mut Formatter<'_>) -> Result {
        write!(f, "{}: ", Name(&self.name))?;
        match self.schema {
            Schema::Union(_) => self.schema.fmt(f)?,
            _ => Within(&self.schema).fmt(f)?,
        }
        match &self.default {
            None => Ok(()),
            Some(default) => write!(f, " (default {default})"),
        }
    }
}

// A schema within another.
struct Within<'a>(&'a Schema);

impl Display for Within<'_> {
    fn fmt(&self, f: &mut Formatter<'_>) -> Result {
        match self.0 {
            Schema::Array(_)
            | Schema::Map(_)
            | Schema::Union(_)
            | Schema::Record(_)
            | Schema::Enum(_) => write!(f, "({})", self.0),
            other => other.fmt(f),
        }
    }
}

#[cfg(test)]
mod tests {
    use super::*;
    use crate::schema::{DecimalSchema, FixedSchema};
    use crate::Value;

    #[test]
    fn schemas_in_words() {
        let fixed = |size| FixedSchema { size };
        let decimal = |inner| {
            Schema::Decimal(DecimalSchema {
                precision: 5,
                scale: 2,
                inner,
            })
        };
        let symbols = |default: Option<&str>| {
            Schema::Enum(EnumSchema {
                symbols: vec!["ok".to_string(), "dnf".to_string()],
                default: default.map(str::to_string),
            })
        };
        let elapsed = Schema::nullable(Schema::Double).unwrap();
        let boat = Schema::record(vec![
            RecordField::new("sail", Schema::String),
            RecordField::new("elapsed", elapsed.clone()).with_default(Value::Null),
            RecordField::new("crew", Schema::array(Schema::Int)),
        ]);
        let boat_words =
            "Record of sail: String, elapsed: Null or Double (default Null), crew: (Array of Int)";
        let words = [
            (Schema::Null, "Null"),
            (Schema::LocalTimestampNanos, "LocalTimestampNanos"),
            (elapsed.clone(), "Null or Double"),
            (Schema::map(elapsed), "Map of (Null or Double)"),
            (Schema::union(vec![]).unwrap(), "Union of nothing"),
            (boat.clone(), boat_words),
            (
                Schema::nullable(boat).unwrap(),
                &format!("Null or ({boat_words})"),
            ),
            (Schema::record(vec![]), "Record of nothing"),
            (symbols(None), "Enum of `ok`, `dnf`"),
            (symbols(Some("ok")), "Enum of `ok`, `dnf` (default `ok`)"),
            (Schema::Fixed(fixed(4)), "Fixed of 4 bytes"),
            (
                decimal(InnerDecimalSchema::Bytes),
                "Decimal of precision 5 and scale 2 in bytes",
            ),
            (
                decimal(InnerDecimalSchema::Fixed(fixed(3))),
                "Decimal of precision 5 and scale 2 in 3 bytes",
            ),
            (Schema::Uuid(UuidSchema::Bytes), "Uuid in bytes"),
            (Schema::Uuid(UuidSchema::String), "Uuid in text"),
            (
                Schema::Uuid(UuidSchema::Fixed(fixed(16))),
                "Uuid in 16 bytes",
            ),
            (Schema::Duration(fixed(12)), "Duration"),
        ];
        for (schema, meant) in words {
            assert_eq!(schema.to_string(), meant);
        }
    }
}
