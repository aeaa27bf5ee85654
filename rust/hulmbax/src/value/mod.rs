//! Values, as apache-avro has them in `types::Value`.

mod access;
mod convert;
mod display;
mod duration;
mod frame;

pub use duration::Duration;

use crate::frame::bytes::{Input, Output};
use crate::frame::{kind, MAX_DEPTH};
use crate::Error;
use std::collections::BTreeMap;

/// A value.
///
/// A Float and a Double keep all their bits in a frame, a NaN's too. As everywhere in Rust, NaN is
/// not equal to itself; to compare bits, compare frames. No result of a [`Reader`](crate::Reader)
/// holds a NaN: it refuses one with [`Refusal::NotANumber`](crate::Refusal::NotANumber), where
/// apache-avro hands it on.
///
/// The common types of Rust turn into values by [`From`], an [`Option`] into a Union of Null and
/// another as [`Schema::nullable`](crate::Schema::nullable) has it. A value is shown in words.
///
/// ```
/// use hulmbax::Value;
///
/// let sent = Value::record([("sail", Value::from("A 12")), ("elapsed", Value::from(Some(3601)))]);
/// assert_eq!(sent.to_string(), "Record of sail: String `A 12`, elapsed: Int 3601 (variant 1)");
/// ```
#[derive(Clone, Debug, PartialEq)]
pub enum Value {
    /// Nothing.
    Null,
    /// True or false.
    Boolean(bool),
    /// A number of 32 bits.
    Int(i32),
    /// A number of 64 bits.
    Long(i64),
    /// A float of 32 bits.
    Float(f32),
    /// A float of 64 bits.
    Double(f64),
    /// Bytes.
    Bytes(Vec<u8>),
    /// Text.
    String(String),
    /// A size and so many bytes.
    Fixed(usize, Vec<u8>),
    /// A symbol and its position among the symbols.
    Enum(u32, String),
    /// A value and the position of its variant.
    Union(u32, Box<Value>),
    /// Items.
    Array(Vec<Value>),
    /// Values under keys.
    Map(BTreeMap<String, Value>),
    /// Values under names; a name may repeat, and the last counts.
    Record(Vec<(String, Value)>),
    /// Days since 1970-01-01.
    Date(i32),
    /// The bytes of a number in two's complement, high byte first.
    Decimal(Vec<u8>),
    /// Time of day in milliseconds.
    TimeMillis(i32),
    /// Time of day in microseconds.
    TimeMicros(i64),
    /// Time since 1970-01-01 UTC in milliseconds.
    TimestampMillis(i64),
    /// Time since 1970-01-01 UTC in microseconds.
    TimestampMicros(i64),
    /// Time since 1970-01-01 UTC in nanoseconds.
    TimestampNanos(i64),
    /// Local time since 1970-01-01 in milliseconds.
    LocalTimestampMillis(i64),
    /// Local time since 1970-01-01 in microseconds.
    LocalTimestampMicros(i64),
    /// Local time since 1970-01-01 in nanoseconds.
    LocalTimestampNanos(i64),
    /// Months, days and milliseconds.
    Duration(Duration),
    /// The 16 bytes of a UUID.
    Uuid([u8; 16]),
}

impl Value {
    /// A Record of these values under these names.
    ///
    /// ```
    /// use hulmbax::Value;
    ///
    /// let finish = Value::record([("sail", Value::from("B 7")), ("race", Value::from(2))]);
    /// assert_eq!(finish.get("race"), Some(&Value::Int(2)));
    /// ```
    pub fn record<N: Into<String>>(fields: impl IntoIterator<Item = (N, Value)>) -> Value {
        let fields = fields.into_iter();
        Value::Record(fields.map(|(name, value)| (name.into(), value)).collect())
    }

    /// A Map of these values under these keys; of a key that repeats, the last counts.
    pub fn map<K: Into<String>>(entries: impl IntoIterator<Item = (K, Value)>) -> Value {
        let entries = entries.into_iter();
        Value::Map(entries.map(|(key, value)| (key.into(), value)).collect())
    }

    /// An Array of these items.
    pub fn array<V: Into<Value>>(items: impl IntoIterator<Item = V>) -> Value {
        Value::Array(items.into_iter().map(V::into).collect())
    }

    /// The value's frame.
    ///
    /// # Errors
    ///
    /// [`Error::Frame`]: the frame would be longer than 65,535 bytes, a count or a length has no room
    /// in its 2 bytes, the value is nested deeper than 16, or a Fixed states another size than its
    /// bytes have.
    pub fn to_frame(&self) -> Result<Vec<u8>, Error> {
        let mut out = Output::default();
        self.write(&mut out, MAX_DEPTH)?;
        Ok(out.end()?)
    }

    /// The value of a frame.
    ///
    /// # Errors
    ///
    /// [`Error::Frame`]: the bytes are no frame of a value, which the library refuses with 5.
    pub fn from_frame(frame: &[u8]) -> Result<Value, Error> {
        let mut from = Input::new(frame)?;
        let value = Value::read(&mut from, MAX_DEPTH)?;
        from.end()?;
        Ok(value)
    }

    /// The kind byte that opens the value's frame.
    pub fn kind(&self) -> u8 {
        match self {
            Value::Null => kind::NULL,
            Value::Boolean(_) => kind::BOOLEAN,
            Value::Int(_) => kind::INT,
            Value::Long(_) => kind::LONG,
            Value::Float(_) => kind::FLOAT,
            Value::Double(_) => kind::DOUBLE,
            Value::Bytes(_) => kind::BYTES,
            Value::String(_) => kind::STRING,
            Value::Array(_) => kind::ARRAY,
            Value::Map(_) => kind::MAP,
            Value::Union(..) => kind::UNION,
            Value::Record(_) => kind::RECORD,
            Value::Enum(..) => kind::ENUM,
            Value::Fixed(..) => kind::FIXED,
            Value::Decimal(_) => kind::DECIMAL,
            Value::Uuid(_) => kind::UUID,
            Value::Date(_) => kind::DATE,
            Value::TimeMillis(_) => kind::TIME_MILLIS,
            Value::TimeMicros(_) => kind::TIME_MICROS,
            Value::TimestampMillis(_) => kind::TIMESTAMP_MILLIS,
            Value::TimestampMicros(_) => kind::TIMESTAMP_MICROS,
            Value::TimestampNanos(_) => kind::TIMESTAMP_NANOS,
            Value::LocalTimestampMillis(_) => kind::LOCAL_TIMESTAMP_MILLIS,
            Value::LocalTimestampMicros(_) => kind::LOCAL_TIMESTAMP_MICROS,
            Value::LocalTimestampNanos(_) => kind::LOCAL_TIMESTAMP_NANOS,
            Value::Duration(_) => kind::DURATION,
        }
    }

    /// The kind under which a union's table of kinds is asked for this value, as
    /// `value_to_base_schemakind` of apache-avro has it.
    pub(crate) fn unnamed_kind(&self) -> Option<u8> {
        match self.kind() {
            kind::RECORD | kind::ENUM | kind::FIXED | kind::DURATION => None,
            kind::DECIMAL => Some(kind::BYTES),
            kind::UUID => Some(kind::STRING),
            kind::DATE | kind::TIME_MILLIS => Some(kind::INT),
            kind::TIME_MICROS..=kind::LOCAL_TIMESTAMP_NANOS => Some(kind::LONG),
            other => Some(other),
        }
    }
}
