//! Q-10: "Logs already stored with a NaN are not rewritten; they still read as frames, and no accepted
//! resolution of one holds a NaN."
use crate::frame::{self, Value};

/// Whether a result, by its bytes, holds a NaN at any depth. One that is no frame holds none.
pub fn nan_in(result: &[u8]) -> bool {
    frame::read_value(result).is_ok_and(|v| holds_nan(&v))
}

fn holds_nan(v: &Value) -> bool {
    match v {
        Value::Float(bits) => f32::from_bits(*bits).is_nan(),
        Value::Double(bits) => f64::from_bits(*bits).is_nan(),
        Value::Array(items) => items.iter().any(holds_nan),
        Value::Map(items) | Value::Record(items) => items.iter().any(|(_, v)| holds_nan(v)),
        Value::Union(_, v) => holds_nan(v),
        _ => false,
    }
}
