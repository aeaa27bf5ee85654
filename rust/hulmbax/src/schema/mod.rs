//! Schemas, as apache-avro has them in `Schema`.

mod display;
mod frame;
mod parts;
mod union;

pub use parts::{
    ArraySchema, DecimalSchema, EnumSchema, FixedSchema, InnerDecimalSchema, MapSchema,
    RecordField, RecordSchema, UuidSchema,
};
pub use union::UnionSchema;

use crate::frame::bytes::{Input, Output};
use crate::frame::{kind, MAX_DEPTH};
use crate::Error;

/// A schema.
///
/// It is shown in words: `Record of sail: String, elapsed: Null or Double (default Null)`. The
/// names of records, enums and fixed are not carried; without references they decide nothing.
#[derive(Clone, Debug, PartialEq)]
pub enum Schema {
    /// Nothing.
    Null,
    /// True or false.
    Boolean,
    /// A number of 32 bits.
    Int,
    /// A number of 64 bits.
    Long,
    /// A float of 32 bits.
    Float,
    /// A float of 64 bits.
    Double,
    /// Bytes.
    Bytes,
    /// Text.
    String,
    /// Items of one schema.
    Array(ArraySchema),
    /// Values of one schema under keys.
    Map(MapSchema),
    /// One of several schemas.
    Union(UnionSchema),
    /// Fields.
    Record(RecordSchema),
    /// One of several symbols.
    Enum(EnumSchema),
    /// So many bytes.
    Fixed(FixedSchema),
    /// A decimal number of a precision and a scale.
    Decimal(DecimalSchema),
    /// A UUID, in one of three forms.
    Uuid(UuidSchema),
    /// Days since 1970-01-01.
    Date,
    /// Time of day in milliseconds.
    TimeMillis,
    /// Time of day in microseconds.
    TimeMicros,
    /// Time since 1970-01-01 UTC in milliseconds.
    TimestampMillis,
    /// Time since 1970-01-01 UTC in microseconds.
    TimestampMicros,
    /// Time since 1970-01-01 UTC in nanoseconds.
    TimestampNanos,
    /// Local time since 1970-01-01 in milliseconds.
    LocalTimestampMillis,
    /// Local time since 1970-01-01 in microseconds.
    LocalTimestampMicros,
    /// Local time since 1970-01-01 in nanoseconds.
    LocalTimestampNanos,
    /// Months, days and milliseconds; the size must be 12.
    Duration(FixedSchema),
}

impl Schema {
    /// An Array of items of this schema.
    pub fn array(items: Schema) -> Schema {
        Schema::Array(ArraySchema {
            items: Box::new(items),
        })
    }

    /// A Map of values of this schema.
    pub fn map(types: Schema) -> Schema {
        Schema::Map(MapSchema {
            types: Box::new(types),
        })
    }

    /// A Record of these fields.
    ///
    /// ```
    /// use hulmbax::{RecordField, Schema, Value};
    ///
    /// let finish = Schema::record(vec![
    ///     RecordField::new("sail", Schema::String),
    ///     RecordField::new("rating", Schema::Double).with_default(Value::Int(1000)),
    /// ]);
    /// let words = "Record of sail: String, rating: Double (default Int 1000)";
    /// assert_eq!(finish.to_string(), words);
    /// ```
    pub fn record(fields: Vec<RecordField>) -> Schema {
        Schema::Record(RecordSchema { fields })
    }

    /// A union of these variants, with the tables of [`UnionSchema::new`].
    ///
    /// # Errors
    ///
    /// Those of [`UnionSchema::new`].
    pub fn union(variants: Vec<Schema>) -> Result<Schema, Error> {
        UnionSchema::new(variants).map(Schema::Union)
    }

    /// Null or this schema: the union that an `Option` suits.
    ///
    /// ```
    /// use hulmbax::{Schema, Value};
    ///
    /// let elapsed = Schema::nullable(Schema::Double)?;
    /// assert_eq!(elapsed, Schema::union(vec![Schema::Null, Schema::Double])?);
    /// assert_eq!(Value::Float(0.5).resolve(&elapsed)?, Value::from(Some(0.5)));
    /// # Ok::<(), hulmbax::Error>(())
    /// ```
    ///
    /// # Errors
    ///
    /// Those of [`UnionSchema::new`]: the schema is itself Null or a union.
    pub fn nullable(schema: Schema) -> Result<Schema, Error> {
        Schema::union(vec![Schema::Null, schema])
    }

    /// The schema's frame.
    ///
    /// Whether the schema is sound is not asked here; [`Schema::check`] and
    /// [`Reader::new`](crate::Reader::new) do.
    ///
    /// # Errors
    ///
    /// [`Error::Frame`]: the frame would be longer than 65,535 bytes, a count, a length, a size, a
    /// precision or a scale has no room in its bytes, the schema is nested deeper than 16, or a
    /// Fixed in a default states another size than its bytes have.
    pub fn to_frame(&self) -> Result<Vec<u8>, Error> {
        let mut out = Output::default();
        self.write(&mut out, MAX_DEPTH)?;
        Ok(out.end()?)
    }

    /// The schema of a frame.
    ///
    /// # Errors
    ///
    /// [`Error::Frame`]: the bytes are no frame of a schema, which the library refuses with 2, or a
    /// default has a map whose keys don't rise, which it refuses with 3.
    pub fn from_frame(frame: &[u8]) -> Result<Schema, Error> {
        let mut from = Input::new(frame)?;
        let schema = Schema::read(&mut from, MAX_DEPTH)?;
        from.end()?;
        Ok(schema)
    }

    /// The kind byte that opens the schema's frame.
    pub fn kind(&self) -> u8 {
        match self {
            Schema::Null => kind::NULL,
            Schema::Boolean => kind::BOOLEAN,
            Schema::Int => kind::INT,
            Schema::Long => kind::LONG,
            Schema::Float => kind::FLOAT,
            Schema::Double => kind::DOUBLE,
            Schema::Bytes => kind::BYTES,
            Schema::String => kind::STRING,
            Schema::Array(_) => kind::ARRAY,
            Schema::Map(_) => kind::MAP,
            Schema::Union(_) => kind::UNION,
            Schema::Record(_) => kind::RECORD,
            Schema::Enum(_) => kind::ENUM,
            Schema::Fixed(_) => kind::FIXED,
            Schema::Decimal(_) => kind::DECIMAL,
            Schema::Uuid(_) => kind::UUID,
            Schema::Date => kind::DATE,
            Schema::TimeMillis => kind::TIME_MILLIS,
            Schema::TimeMicros => kind::TIME_MICROS,
            Schema::TimestampMillis => kind::TIMESTAMP_MILLIS,
            Schema::TimestampMicros => kind::TIMESTAMP_MICROS,
            Schema::TimestampNanos => kind::TIMESTAMP_NANOS,
            Schema::LocalTimestampMillis => kind::LOCAL_TIMESTAMP_MILLIS,
            Schema::LocalTimestampMicros => kind::LOCAL_TIMESTAMP_MICROS,
            Schema::LocalTimestampNanos => kind::LOCAL_TIMESTAMP_NANOS,
            Schema::Duration(_) => kind::DURATION,
        }
    }

    /// The kind that underlies a logical type, as `schema_to_base_schemakind` of apache-avro has it.
    /// It is Record, Enum or Fixed for just those schemas that have a name there.
    pub(crate) fn base_kind(&self) -> u8 {
        match self {
            Schema::Date | Schema::TimeMillis => kind::INT,
            Schema::TimeMicros
            | Schema::TimestampMillis
            | Schema::TimestampMicros
            | Schema::TimestampNanos
            | Schema::LocalTimestampMillis
            | Schema::LocalTimestampMicros
            | Schema::LocalTimestampNanos => kind::LONG,
            Schema::Uuid(UuidSchema::Bytes) => kind::BYTES,
            Schema::Uuid(UuidSchema::String) => kind::STRING,
            Schema::Uuid(UuidSchema::Fixed(_)) | Schema::Duration(_) => kind::FIXED,
            Schema::Decimal(decimal) => match decimal.inner {
                InnerDecimalSchema::Bytes => kind::BYTES,
                InnerDecimalSchema::Fixed(_) => kind::FIXED,
            },
            other => other.kind(),
        }
    }
}
