// What several tests share: frames as hexadecimal, one call on them, and short names for parts.
use hulmbax::frame::{resolve, RESULT_LEN, WORKSPACE_LEN};
use hulmbax::schema::{DecimalSchema, EnumSchema, FixedSchema, InnerDecimalSchema};
use hulmbax::{hex, RecordField, Refusal, Schema, Value};

/// The bytes of a hexadecimal literal.
pub fn bytes(digits: &str) -> Vec<u8> {
    hex::decode(digits).unwrap_or_else(|| panic!("not whole byte pairs: {digits}"))
}

/// Resolves with a buffer into which every result fits.
pub fn resolved(schema: &[u8], record: &[u8]) -> Result<Vec<u8>, Refusal> {
    let mut result = vec![0; RESULT_LEN];
    let n = resolve(schema, record, &mut result, &mut vec![0; WORKSPACE_LEN])?;
    result.truncate(n);
    Ok(result)
}

/// The line that program `resolve` writes for this answer.
pub fn line(answer: Result<Vec<u8>, Refusal>) -> String {
    match answer {
        Ok(result) => format!("+ {}", hex::encode(&result)),
        Err(refusal) => format!("- {}", refusal.number()),
    }
}

/// Whether a NaN stands anywhere in the value.
pub fn holds_nan(value: &Value) -> bool {
    match value {
        Value::Float(x) => x.is_nan(),
        Value::Double(x) => x.is_nan(),
        Value::Union(_, inner) => holds_nan(inner),
        Value::Array(items) => items.iter().any(holds_nan),
        Value::Map(entries) => entries.values().any(holds_nan),
        Value::Record(fields) => fields.iter().any(|(_, value)| holds_nan(value)),
        _ => false,
    }
}

pub fn fixed(size: usize) -> FixedSchema {
    FixedSchema { size }
}

pub fn decimal(precision: usize, scale: usize, inner: InnerDecimalSchema) -> Schema {
    Schema::Decimal(DecimalSchema {
        precision,
        scale,
        inner,
    })
}

pub fn symbols(symbols: &[&str], default: Option<&str>) -> Schema {
    Schema::Enum(EnumSchema {
        symbols: symbols.iter().map(|s| s.to_string()).collect(),
        default: default.map(str::to_string),
    })
}

pub fn nullable(schema: Schema) -> Schema {
    Schema::nullable(schema).unwrap()
}

/// A Record of these fields, none of which has a default.
pub fn record<const N: usize>(fields: [(&str, Schema); N]) -> Schema {
    Schema::record(fields.map(|(name, s)| RecordField::new(name, s)).to_vec())
}
