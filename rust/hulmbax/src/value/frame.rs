// The frame of a value.
use super::{Duration, Value};
use crate::frame::bytes::{Input, Output};
use crate::frame::{kind, FrameError};
use std::collections::BTreeMap;

impl Value {
    /// Writes the node; it and what it holds may be `depth` deep.
    pub(crate) fn write(&self, out: &mut Output, depth: usize) -> Result<(), FrameError> {
        let below = depth.checked_sub(1).ok_or(FrameError::TooDeep)?;
        out.byte(self.kind());
        match self {
            Value::Null => {}
            Value::Boolean(b) => out.flag(*b),
            Value::Int(n) | Value::Date(n) | Value::TimeMillis(n) => out.raw(&n.to_be_bytes()),
            Value::Long(n)
            | Value::TimeMicros(n)
            | Value::TimestampMillis(n)
            | Value::TimestampMicros(n)
            | Value::TimestampNanos(n)
            | Value::LocalTimestampMillis(n)
            | Value::LocalTimestampMicros(n)
            | Value::LocalTimestampNanos(n) => out.raw(&n.to_be_bytes()),
            Value::Float(x) => out.raw(&x.to_bits().to_be_bytes()),
            Value::Double(x) => out.raw(&x.to_bits().to_be_bytes()),
            Value::Bytes(b) | Value::Decimal(b) => out.octets(b)?,
            Value::String(s) => out.text(s)?,
            Value::Fixed(n, b) if *n != b.len() => return Err(FrameError::FixedSize),
            Value::Fixed(_, b) => out.octets(b)?,
            Value::Enum(i, symbol) => {
                out.raw(&i.to_be_bytes());
                out.text(symbol)?;
            }
            Value::Union(i, value) => {
                out.raw(&i.to_be_bytes());
                value.write(out, below)?;
            }
            Value::Array(items) => write_items(out, items, below)?,
            Value::Map(items) => write_named(out, items.iter(), below)?,
            Value::Record(items) => write_named(out, items.iter().map(|(k, v)| (k, v)), below)?,
            Value::Duration(d) => out.raw(&<[u8; 12]>::from(*d)),
            Value::Uuid(b) => out.raw(b),
        }
        Ok(())
    }

    /// Reads a node; it and what it holds may be `depth` deep.
    pub(crate) fn read(from: &mut Input<'_>, depth: usize) -> Result<Value, FrameError> {
        let below = depth.checked_sub(1).ok_or(FrameError::TooDeep)?;
        Ok(match from.byte()? {
            kind::NULL => Value::Null,
            kind::BOOLEAN => Value::Boolean(from.flag()?),
            kind::INT => Value::Int(from.int()?),
            kind::LONG => Value::Long(from.long()?),
            kind::FLOAT => Value::Float(from.array().map(u32::from_be_bytes).map(f32::from_bits)?),
            kind::DOUBLE => {
                Value::Double(from.array().map(u64::from_be_bytes).map(f64::from_bits)?)
            }
            kind::BYTES => Value::Bytes(from.octets()?),
            kind::STRING => Value::String(from.text()?),
            kind::ARRAY => Value::Array(from.list(|r| Value::read(r, below))?),
            kind::MAP => Value::Map(rising(read_named(from, below)?)?),
            kind::UNION => Value::Union(from.index()?, Box::new(Value::read(from, below)?)),
            kind::RECORD => Value::Record(read_named(from, below)?),
            kind::ENUM => Value::Enum(from.index()?, from.text()?),
            kind::FIXED => {
                let bytes = from.octets()?;
                Value::Fixed(bytes.len(), bytes)
            }
            kind::DECIMAL => Value::Decimal(from.octets()?),
            kind::UUID => Value::Uuid(from.array()?),
            kind::DATE => Value::Date(from.int()?),
            kind::TIME_MILLIS => Value::TimeMillis(from.int()?),
            kind::TIME_MICROS => Value::TimeMicros(from.long()?),
            kind::TIMESTAMP_MILLIS => Value::TimestampMillis(from.long()?),
            kind::TIMESTAMP_MICROS => Value::TimestampMicros(from.long()?),
            kind::TIMESTAMP_NANOS => Value::TimestampNanos(from.long()?),
            kind::LOCAL_TIMESTAMP_MILLIS => Value::LocalTimestampMillis(from.long()?),
            kind::LOCAL_TIMESTAMP_MICROS => Value::LocalTimestampMicros(from.long()?),
            kind::LOCAL_TIMESTAMP_NANOS => Value::LocalTimestampNanos(from.long()?),
            kind::DURATION => Value::Duration(Duration::from(from.array::<12>()?)),
            other => return Err(FrameError::Kind(other)),
        })
    }
}

fn write_items(out: &mut Output, items: &[Value], depth: usize) -> Result<(), FrameError> {
    out.count(items.len())?;
    items.iter().try_for_each(|item| item.write(out, depth))
}

// The entries of a Map or a Record.
fn write_named<'a>(
    out: &mut Output,
    items: impl ExactSizeIterator<Item = (&'a String, &'a Value)>,
    depth: usize,
) -> Result<(), FrameError> {
    out.count(items.len())?;
    for (name, value) in items {
        out.text(name)?;
        value.write(out, depth)?;
    }
    Ok(())
}

fn read_named(from: &mut Input<'_>, depth: usize) -> Result<Vec<(String, Value)>, FrameError> {
    from.list(|r| Ok((r.text()?, Value::read(r, depth)?)))
}

// A map of entries whose keys rise strictly by their bytes, which is the order of `String`.
fn rising(items: Vec<(String, Value)>) -> Result<BTreeMap<String, Value>, FrameError> {
    if items.windows(2).all(|pair| pair[0].0 < pair[1].0) {
        Ok(items.into_iter().collect())
    } else {
        Err(FrameError::Keys)
    }
}
