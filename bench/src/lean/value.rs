//! A value frame as the crate's `Value`, with check 5 on the way.
use super::reader::Reader;
use apache_avro::{Decimal, Duration, Uuid, types::Value};
use oracle::frame::{MAX_DEPTH, MAX_FRAME};
use std::collections::HashMap;

/// `None`: the value is no frame.
pub fn read_value(frame: &[u8]) -> Option<Value> {
    if frame.len() > MAX_FRAME {
        return None;
    }
    let mut r = Reader(frame);
    let v = value(&mut r, MAX_DEPTH)?;
    r.0.is_empty().then_some(v)
}

/// The node at the front; `depth` levels may still come.
fn value(r: &mut Reader, depth: usize) -> Option<Value> {
    if depth == 0 {
        return None;
    }
    match r.n8()? {
        0x08 => array(r, depth - 1),
        0x09 => map(r, depth - 1),
        0x0a => Some(Value::Union(r.n32()?, Box::new(value(r, depth - 1)?))),
        0x0b => record(r, depth - 1),
        kind => leaf(r, kind),
    }
}

fn leaf(r: &mut Reader, kind: u8) -> Option<Value> {
    Some(match kind {
        0x00 => Value::Null,
        0x01 => Value::Boolean(r.flag()?),
        0x02 => Value::Int(r.n32()? as i32),
        0x03 => Value::Long(r.n64()?),
        0x04 => Value::Float(f32::from_bits(r.n32()?)),
        0x05 => Value::Double(f64::from_bits(r.n64()? as u64)),
        0x06 => Value::Bytes(r.bytes()?),
        0x07 => Value::String(r.text()?),
        0x0c => Value::Enum(r.n32()?, r.text()?),
        0x0d => {
            let b = r.bytes()?;
            Value::Fixed(b.len(), b)
        }
        0x0e => Value::Decimal(Decimal::from(r.bytes()?)),
        0x0f => Value::Uuid(Uuid::from_slice(r.take(16)?).ok()?),
        0x10 => Value::Date(r.n32()? as i32),
        0x11 => Value::TimeMillis(r.n32()? as i32),
        0x12 => Value::TimeMicros(r.n64()?),
        0x13 => Value::TimestampMillis(r.n64()?),
        0x14 => Value::TimestampMicros(r.n64()?),
        0x15 => Value::TimestampNanos(r.n64()?),
        0x16 => Value::LocalTimestampMillis(r.n64()?),
        0x17 => Value::LocalTimestampMicros(r.n64()?),
        0x18 => Value::LocalTimestampNanos(r.n64()?),
        0x19 => Value::Duration(Duration::from(<[u8; 12]>::try_from(r.take(12)?).ok()?)),
        _ => return None,
    })
}

fn array(r: &mut Reader, depth: usize) -> Option<Value> {
    let n = r.n16()?;
    let mut items = Vec::with_capacity(n.min(r.0.len()));
    for _ in 0..n {
        items.push(value(r, depth)?);
    }
    Some(Value::Array(items))
}

fn map(r: &mut Reader, depth: usize) -> Option<Value> {
    let n = r.n16()?;
    let mut items = HashMap::with_capacity(n.min(r.0.len()));
    let mut last: Option<&str> = None;
    for _ in 0..n {
        let key = r.part()?;
        if last.is_some_and(|l| l >= key) {
            return None;
        }
        last = Some(key);
        items.insert(key.to_string(), value(r, depth)?);
    }
    Some(Value::Map(items))
}

fn record(r: &mut Reader, depth: usize) -> Option<Value> {
    let n = r.n16()?;
    let mut items = Vec::with_capacity(n.min(r.0.len()));
    for _ in 0..n {
        let name = r.text()?;
        items.push((name, value(r, depth)?));
    }
    Some(Value::Record(items))
}
