//! The crate's `Value` as a frame.
use apache_avro::types::Value;

pub fn write_value(out: &mut Vec<u8>, v: &Value) {
    match v {
        Value::Array(items) => {
            count(out, 0x08, items.len());
            items.iter().for_each(|v| write_value(out, v));
        }
        Value::Map(items) => {
            count(out, 0x09, items.len());
            let mut pairs: Vec<(&String, &Value)> = items.iter().collect();
            pairs.sort_unstable_by_key(|pair| pair.0);
            pairs.into_iter().for_each(|(k, v)| entry(out, k, v));
        }
        Value::Union(i, v) => {
            b32(out, 0x0a, *i);
            write_value(out, v);
        }
        Value::Record(items) => {
            count(out, 0x0b, items.len());
            items.iter().for_each(|(k, v)| entry(out, k, v));
        }
        leaf => write_leaf(out, leaf),
    }
}

fn write_leaf(out: &mut Vec<u8>, v: &Value) {
    match v {
        Value::Null => out.push(0),
        Value::Boolean(b) => out.extend_from_slice(&[1, *b as u8]),
        Value::Int(n) => b32(out, 2, *n as u32),
        Value::Long(n) => b64(out, 3, *n as u64),
        Value::Float(x) => b32(out, 4, x.to_bits()),
        Value::Double(x) => b64(out, 5, x.to_bits()),
        Value::Bytes(b) => octets(out, 6, b),
        Value::String(s) => octets(out, 7, s.as_bytes()),
        Value::Enum(i, s) => {
            b32(out, 0x0c, *i);
            text(out, s.as_bytes());
        }
        Value::Fixed(_, b) => octets(out, 0x0d, b),
        Value::Decimal(d) => octets(out, 0x0e, &Vec::<u8>::try_from(d).unwrap_or_default()),
        Value::Uuid(u) => {
            out.push(0x0f);
            out.extend_from_slice(u.as_bytes());
        }
        Value::Duration(d) => {
            out.push(0x19);
            out.extend_from_slice(&<[u8; 12]>::from(d));
        }
        time => write_time(out, time),
    }
}

fn write_time(out: &mut Vec<u8>, v: &Value) {
    match v {
        Value::Date(n) => b32(out, 0x10, *n as u32),
        Value::TimeMillis(n) => b32(out, 0x11, *n as u32),
        Value::TimeMicros(n) => b64(out, 0x12, *n as u64),
        Value::TimestampMillis(n) => b64(out, 0x13, *n as u64),
        Value::TimestampMicros(n) => b64(out, 0x14, *n as u64),
        Value::TimestampNanos(n) => b64(out, 0x15, *n as u64),
        Value::LocalTimestampMillis(n) => b64(out, 0x16, *n as u64),
        Value::LocalTimestampMicros(n) => b64(out, 0x17, *n as u64),
        Value::LocalTimestampNanos(n) => b64(out, 0x18, *n as u64),
        _ => unreachable!("no frame holds this kind"),
    }
}

fn entry(out: &mut Vec<u8>, name: &str, v: &Value) {
    text(out, name.as_bytes());
    write_value(out, v);
}

fn text(out: &mut Vec<u8>, b: &[u8]) {
    out.extend_from_slice(&(b.len() as u16).to_be_bytes());
    out.extend_from_slice(b);
}

fn octets(out: &mut Vec<u8>, kind: u8, b: &[u8]) {
    out.push(kind);
    text(out, b);
}

fn count(out: &mut Vec<u8>, kind: u8, n: usize) {
    out.push(kind);
    out.extend_from_slice(&(n as u16).to_be_bytes());
}

fn b32(out: &mut Vec<u8>, kind: u8, n: u32) {
    out.push(kind);
    out.extend_from_slice(&n.to_be_bytes());
}

fn b64(out: &mut Vec<u8>, kind: u8, n: u64) {
    out.push(kind);
    out.extend_from_slice(&n.to_be_bytes());
}
