// The parts of a schema.
use super::Schema;
use crate::Value;

/// The schema of an Array.
#[derive(Clone, Debug, PartialEq)]
pub struct ArraySchema {
    /// The schema of each item.
    pub items: Box<Schema>,
}

/// The schema of a Map.
#[derive(Clone, Debug, PartialEq)]
pub struct MapSchema {
    /// The schema of each value.
    pub types: Box<Schema>,
}

/// The schema of a Record.
#[derive(Clone, Debug, PartialEq)]
pub struct RecordSchema {
    /// The fields, in order; no name may repeat.
    pub fields: Vec<RecordField>,
}

/// A field of a Record's schema.
#[derive(Clone, Debug, PartialEq)]
pub struct RecordField {
    /// The field's name.
    pub name: String,
    /// What a record that lacks the field gets: a Null, Boolean, Int, Long outside Int, finite
    /// Double, String, or an Array or a Map of these, which is what JSON gives.
    pub default: Option<Value>,
    /// The field's schema.
    pub schema: Schema,
}

/// The schema of an Enum.
#[derive(Clone, Debug, PartialEq, Eq)]
pub struct EnumSchema {
    /// The symbols, in order.
    pub symbols: Vec<String>,
    /// The symbol that stands for an unknown one.
    pub default: Option<String>,
}

/// The schema of a Fixed.
#[derive(Clone, Copy, Debug, PartialEq, Eq)]
pub struct FixedSchema {
    /// How many bytes.
    pub size: usize,
}

/// The schema of a Decimal.
#[derive(Clone, Copy, Debug, PartialEq, Eq)]
pub struct DecimalSchema {
    /// How many digits.
    pub precision: usize,
    /// How many of them stand after the point.
    pub scale: usize,
    /// What holds the digits.
    pub inner: InnerDecimalSchema,
}

/// What holds the digits of a Decimal.
#[derive(Clone, Copy, Debug, PartialEq, Eq)]
pub enum InnerDecimalSchema {
    /// Bytes of any length.
    Bytes,
    /// A Fixed.
    Fixed(FixedSchema),
}

/// The form of a UUID.
#[derive(Clone, Copy, Debug, PartialEq, Eq)]
pub enum UuidSchema {
    /// 16 bytes.
    Bytes,
    /// Text.
    String,
    /// A Fixed; its size must be 16.
    Fixed(FixedSchema),
}

impl RecordField {
    /// A field without default: a record that lacks it is refused.
    ///
    /// ```
    /// use hulmbax::{RecordField, Schema};
    ///
    /// let rating = RecordField::new("rating", Schema::Double).with_default(1000);
    /// assert_eq!(rating.default, Some(1000.into()));
    /// ```
    pub fn new(name: impl Into<String>, schema: Schema) -> RecordField {
        RecordField {
            name: name.into(),
            default: None,
            schema,
        }
    }

    /// The field with this default.
    #[must_use]
    pub fn with_default(self, default: impl Into<Value>) -> RecordField {
        RecordField {
            default: Some(default.into()),
            ..self
        }
    }
}
