// The frame of a schema.
use super::{
    DecimalSchema, EnumSchema, FixedSchema, InnerDecimalSchema, RecordField, Schema, UnionSchema,
    UuidSchema,
};
use crate::frame::bytes::{Input, Output};
use crate::frame::{kind, FrameError, MAX_DEPTH};
use crate::Value;

impl Schema {
    /// Writes the node; it and what it holds may be `depth` deep.
    pub(crate) fn write(&self, out: &mut Output, depth: usize) -> Result<(), FrameError> {
        let below = depth.checked_sub(1).ok_or(FrameError::TooDeep)?;
        out.byte(self.kind());
        match self {
            Schema::Array(array) => array.items.write(out, below),
            Schema::Map(map) => map.types.write(out, below),
            Schema::Union(union) => union.write(out, below),
            Schema::Record(record) => {
                out.count(record.fields.len())?;
                record.fields.iter().try_for_each(|f| f.write(out, below))
            }
            Schema::Enum(symbols) => symbols.write(out),
            Schema::Fixed(fixed) | Schema::Duration(fixed) => out.count(fixed.size),
            Schema::Decimal(decimal) => decimal.write(out),
            Schema::Uuid(uuid) => uuid.write(out),
            _ => Ok(()),
        }
    }

    /// Reads a node; it and what it holds may be `depth` deep.
    pub(crate) fn read(from: &mut Input<'_>, depth: usize) -> Result<Schema, FrameError> {
        let below = depth.checked_sub(1).ok_or(FrameError::TooDeep)?;
        Ok(match from.byte()? {
            kind::NULL => Schema::Null,
            kind::BOOLEAN => Schema::Boolean,
            kind::INT => Schema::Int,
            kind::LONG => Schema::Long,
            kind::FLOAT => Schema::Float,
            kind::DOUBLE => Schema::Double,
            kind::BYTES => Schema::Bytes,
            kind::STRING => Schema::String,
            kind::ARRAY => Schema::array(Schema::read(from, below)?),
            kind::MAP => Schema::map(Schema::read(from, below)?),
            kind::UNION => Schema::Union(UnionSchema::read(from, below)?),
            kind::RECORD => Schema::record(from.list(|r| RecordField::read(r, below))?),
            kind::ENUM => Schema::Enum(EnumSchema::read(from)?),
            kind::FIXED => Schema::Fixed(FixedSchema::read(from)?),
            kind::DECIMAL => Schema::Decimal(DecimalSchema::read(from)?),
            kind::UUID => Schema::Uuid(UuidSchema::read(from)?),
            kind::DATE => Schema::Date,
            kind::TIME_MILLIS => Schema::TimeMillis,
            kind::TIME_MICROS => Schema::TimeMicros,
            kind::TIMESTAMP_MILLIS => Schema::TimestampMillis,
            kind::TIMESTAMP_MICROS => Schema::TimestampMicros,
            kind::TIMESTAMP_NANOS => Schema::TimestampNanos,
            kind::LOCAL_TIMESTAMP_MILLIS => Schema::LocalTimestampMillis,
            kind::LOCAL_TIMESTAMP_MICROS => Schema::LocalTimestampMicros,
            kind::LOCAL_TIMESTAMP_NANOS => Schema::LocalTimestampNanos,
            kind::DURATION => Schema::Duration(FixedSchema::read(from)?),
            other => return Err(FrameError::Kind(other)),
        })
    }
}

impl RecordField {
    fn write(&self, out: &mut Output, depth: usize) -> Result<(), FrameError> {
        out.text(&self.name)?;
        out.flag(self.default.is_some());
        if let Some(default) = &self.default {
            default.write(out, MAX_DEPTH)?;
        }
        self.schema.write(out, depth)
    }

    fn read(from: &mut Input<'_>, depth: usize) -> Result<RecordField, FrameError> {
        let name = from.text()?;
        let default = match from.flag()? {
            true => Some(Value::read(from, MAX_DEPTH)?),
            false => None,
        };
        let schema = Schema::read(from, depth)?;
        Ok(RecordField {
            name,
            default,
            schema,
        })
    }
}

impl EnumSchema {
    fn write(&self, out: &mut Output) -> Result<(), FrameError> {
        out.count(self.symbols.len())?;
        self.symbols.iter().try_for_each(|s| out.text(s))?;
        out.flag(self.default.is_some());
        self.default.iter().try_for_each(|s| out.text(s))
    }

    fn read(from: &mut Input<'_>) -> Result<EnumSchema, FrameError> {
        let symbols = from.list(|r| r.text())?;
        let default = match from.flag()? {
            true => Some(from.text()?),
            false => None,
        };
        Ok(EnumSchema { symbols, default })
    }
}

impl FixedSchema {
    fn read(from: &mut Input<'_>) -> Result<FixedSchema, FrameError> {
        let size = from.count()?.into();
        Ok(FixedSchema { size })
    }
}

impl DecimalSchema {
    fn write(&self, out: &mut Output) -> Result<(), FrameError> {
        out.wide(self.precision)?;
        out.wide(self.scale)?;
        match self.inner {
            InnerDecimalSchema::Bytes => {
                out.flag(false);
                Ok(())
            }
            InnerDecimalSchema::Fixed(fixed) => {
                out.flag(true);
                out.count(fixed.size)
            }
        }
    }

    fn read(from: &mut Input<'_>) -> Result<DecimalSchema, FrameError> {
        let precision = from.index()? as usize;
        let scale = from.index()? as usize;
        let inner = match from.flag()? {
            true => InnerDecimalSchema::Fixed(FixedSchema::read(from)?),
            false => InnerDecimalSchema::Bytes,
        };
        Ok(DecimalSchema {
            precision,
            scale,
            inner,
        })
    }
}

impl UuidSchema {
    fn write(&self, out: &mut Output) -> Result<(), FrameError> {
        match self {
            UuidSchema::Bytes => out.byte(0),
            UuidSchema::String => out.byte(1),
            UuidSchema::Fixed(fixed) => {
                out.byte(2);
                out.count(fixed.size)?;
            }
        }
        Ok(())
    }

    fn read(from: &mut Input<'_>) -> Result<UuidSchema, FrameError> {
        match from.byte()? {
            0 => Ok(UuidSchema::Bytes),
            1 => Ok(UuidSchema::String),
            2 => Ok(UuidSchema::Fixed(FixedSchema::read(from)?)),
            other => Err(FrameError::Flag(other)),
        }
    }
}
