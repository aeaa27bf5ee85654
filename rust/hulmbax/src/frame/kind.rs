//! The kind byte that opens each node of a frame, and that a union's kind table holds.

/// Null.
pub const NULL: u8 = 0x00;
/// Boolean.
pub const BOOLEAN: u8 = 0x01;
/// Int.
pub const INT: u8 = 0x02;
/// Long.
pub const LONG: u8 = 0x03;
/// Float.
pub const FLOAT: u8 = 0x04;
/// Double.
pub const DOUBLE: u8 = 0x05;
/// Bytes.
pub const BYTES: u8 = 0x06;
/// String.
pub const STRING: u8 = 0x07;
/// Array.
pub const ARRAY: u8 = 0x08;
/// Map.
pub const MAP: u8 = 0x09;
/// Union.
pub const UNION: u8 = 0x0a;
/// Record.
pub const RECORD: u8 = 0x0b;
/// Enum.
pub const ENUM: u8 = 0x0c;
/// Fixed.
pub const FIXED: u8 = 0x0d;
/// Decimal.
pub const DECIMAL: u8 = 0x0e;
/// Uuid.
pub const UUID: u8 = 0x0f;
/// Date.
pub const DATE: u8 = 0x10;
/// TimeMillis.
pub const TIME_MILLIS: u8 = 0x11;
/// TimeMicros.
pub const TIME_MICROS: u8 = 0x12;
/// TimestampMillis.
pub const TIMESTAMP_MILLIS: u8 = 0x13;
/// TimestampMicros.
pub const TIMESTAMP_MICROS: u8 = 0x14;
/// TimestampNanos.
pub const TIMESTAMP_NANOS: u8 = 0x15;
/// LocalTimestampMillis.
pub const LOCAL_TIMESTAMP_MILLIS: u8 = 0x16;
/// LocalTimestampMicros.
pub const LOCAL_TIMESTAMP_MICROS: u8 = 0x17;
/// LocalTimestampNanos.
pub const LOCAL_TIMESTAMP_NANOS: u8 = 0x18;
/// Duration.
pub const DURATION: u8 = 0x19;
