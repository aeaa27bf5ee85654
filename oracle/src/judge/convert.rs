//! From trees of the scope to those of the crate and back. Compiled for either judge.
use super::avro::{
    Decimal, Duration, Schema as AvroSchema, Uuid,
    error::Details,
    schema::{
        ArraySchema, DecimalSchema, EnumSchema, FixedSchema, InnerDecimalSchema, MapSchema, Name,
        RecordField, RecordSchema, SchemaKind, UnionSchema, UuidSchema,
    },
    types::Value as AvroValue,
};
use crate::frame::{Field, Schema, Union, Value};
use serde_json::Value as Json;
use std::collections::BTreeMap;

// ---------------------------------------------------------------- schema

/// Gives each named schema a name of its own: n1, n2 and so on.
#[derive(Default)]
pub struct Namer {
    next: usize,
}

impl Namer {
    fn name(&mut self) -> Name {
        self.next += 1;
        Name::new(format!("n{}", self.next)).unwrap()
    }
    fn fixed(&mut self, size: u16) -> FixedSchema {
        FixedSchema {
            name: self.name(),
            aliases: None,
            doc: None,
            size: size as usize,
            attributes: BTreeMap::new(),
        }
    }
}

pub fn schema_kind(k: u8) -> SchemaKind {
    use SchemaKind::*;
    [
        Null,
        Boolean,
        Int,
        Long,
        Float,
        Double,
        Bytes,
        String,
        Array,
        Map,
        Union,
        Record,
        Enum,
        Fixed,
        Decimal,
        Uuid,
        Date,
        TimeMillis,
        TimeMicros,
        TimestampMillis,
        TimestampMicros,
        TimestampNanos,
        LocalTimestampMillis,
        LocalTimestampMicros,
        LocalTimestampNanos,
        Duration,
    ][k as usize]
}

/// Only for a schema that passed 2 and 3.
pub fn to_schema(s: &Schema, names: &mut Namer) -> AvroSchema {
    match s {
        Schema::Plain(k) => match k {
            0x00 => AvroSchema::Null,
            0x01 => AvroSchema::Boolean,
            0x02 => AvroSchema::Int,
            0x03 => AvroSchema::Long,
            0x04 => AvroSchema::Float,
            0x05 => AvroSchema::Double,
            0x06 => AvroSchema::Bytes,
            0x07 => AvroSchema::String,
            0x10 => AvroSchema::Date,
            0x11 => AvroSchema::TimeMillis,
            0x12 => AvroSchema::TimeMicros,
            0x13 => AvroSchema::TimestampMillis,
            0x14 => AvroSchema::TimestampMicros,
            0x15 => AvroSchema::TimestampNanos,
            0x16 => AvroSchema::LocalTimestampMillis,
            0x17 => AvroSchema::LocalTimestampMicros,
            0x18 => AvroSchema::LocalTimestampNanos,
            _ => unreachable!(),
        },
        Schema::Array(i) => AvroSchema::Array(ArraySchema {
            items: Box::new(to_schema(i, names)),
            attributes: BTreeMap::new(),
        }),
        Schema::Map(i) => {
            AvroSchema::Map(MapSchema { types: Box::new(to_schema(i, names)), attributes: BTreeMap::new() })
        }
        Schema::Union(Union { variants, kinds, named }) => {
            let schemas: Vec<AvroSchema> = variants.iter().map(|v| to_schema(v, names)).collect();
            AvroSchema::Union(UnionSchema::oracle_with_tables(
                schemas,
                kinds.iter().map(|&(k, p)| (schema_kind(k), p as usize)).collect(),
                named.iter().map(|&p| p as usize).collect(),
            ))
        }
        Schema::Record(fields) => {
            let name = names.name();
            let fields: Vec<RecordField> = fields
                .iter()
                .map(|Field { name, default, schema }| RecordField {
                    name: name.clone(),
                    doc: None,
                    aliases: vec![],
                    default: default.as_ref().map(to_json),
                    schema: to_schema(schema, names),
                    custom_attributes: BTreeMap::new(),
                })
                .collect();
            let lookup = fields.iter().enumerate().map(|(i, f)| (f.name.clone(), i)).collect();
            AvroSchema::Record(RecordSchema {
                name,
                aliases: None,
                doc: None,
                fields,
                lookup,
                attributes: BTreeMap::new(),
            })
        }
        Schema::Enum(symbols, default) => AvroSchema::Enum(EnumSchema {
            name: names.name(),
            aliases: None,
            doc: None,
            symbols: symbols.clone(),
            default: default.clone(),
            attributes: BTreeMap::new(),
        }),
        Schema::Fixed(n) => AvroSchema::Fixed(names.fixed(*n)),
        Schema::Decimal(p, s, size) => AvroSchema::Decimal(DecimalSchema {
            precision: *p as usize,
            scale: *s as usize,
            inner: match size {
                None => InnerDecimalSchema::Bytes,
                Some(n) => InnerDecimalSchema::Fixed(names.fixed(*n)),
            },
        }),
        Schema::UuidBytes => AvroSchema::Uuid(UuidSchema::Bytes),
        Schema::UuidString => AvroSchema::Uuid(UuidSchema::String),
        Schema::UuidFixed(n) => AvroSchema::Uuid(UuidSchema::Fixed(names.fixed(*n))),
        Schema::Duration(n) => AvroSchema::Duration(names.fixed(*n)),
    }
}

/// A default, as the JSON that the crate keeps.
pub fn to_json(v: &Value) -> Json {
    match v {
        Value::Null => Json::Null,
        Value::Bool(b) => Json::Bool(*b),
        Value::Int(n) => Json::from(*n),
        Value::Long(n) => Json::from(*n),
        Value::Double(b) => Json::Number(serde_json::Number::from_f64(f64::from_bits(*b)).unwrap()),
        Value::Str(s) => Json::String(s.clone()),
        Value::Array(items) => Json::Array(items.iter().map(to_json).collect()),
        Value::Map(items) => Json::Object(items.iter().map(|(k, v)| (k.clone(), to_json(v))).collect()),
        _ => unreachable!("check 3"),
    }
}

// ---------------------------------------------------------------- values

pub fn to_value(v: &Value) -> AvroValue {
    match v {
        Value::Null => AvroValue::Null,
        Value::Bool(b) => AvroValue::Boolean(*b),
        Value::Int(i) => AvroValue::Int(*i),
        Value::Long(i) => AvroValue::Long(*i),
        Value::Float(b) => AvroValue::Float(f32::from_bits(*b)),
        Value::Double(b) => AvroValue::Double(f64::from_bits(*b)),
        Value::Bytes(b) => AvroValue::Bytes(b.clone()),
        Value::Str(s) => AvroValue::String(s.clone()),
        Value::Array(items) => AvroValue::Array(items.iter().map(to_value).collect()),
        Value::Map(items) => AvroValue::Map(items.iter().map(|(k, v)| (k.clone(), to_value(v))).collect()),
        Value::Union(i, v) => AvroValue::Union(*i, Box::new(to_value(v))),
        Value::Record(items) => {
            AvroValue::Record(items.iter().map(|(k, v)| (k.clone(), to_value(v))).collect())
        }
        Value::Enum(i, s) => AvroValue::Enum(*i, s.clone()),
        Value::Fixed(b) => AvroValue::Fixed(b.len(), b.clone()),
        Value::Decimal(b) => AvroValue::Decimal(Decimal::from(b)),
        Value::Uuid(b) => AvroValue::Uuid(Uuid::from_bytes(*b)),
        Value::Time32(0x10, i) => AvroValue::Date(*i),
        Value::Time32(_, i) => AvroValue::TimeMillis(*i),
        Value::Time64(k, i) => match k {
            0x12 => AvroValue::TimeMicros(*i),
            0x13 => AvroValue::TimestampMillis(*i),
            0x14 => AvroValue::TimestampMicros(*i),
            0x15 => AvroValue::TimestampNanos(*i),
            0x16 => AvroValue::LocalTimestampMillis(*i),
            0x17 => AvroValue::LocalTimestampMicros(*i),
            _ => AvroValue::LocalTimestampNanos(*i),
        },
        Value::Duration(b) => AvroValue::Duration(Duration::from(*b)),
    }
}

pub fn from_value(v: &AvroValue) -> Value {
    let pairs = |items: &mut dyn Iterator<Item = (&String, &AvroValue)>| -> Vec<(String, Value)> {
        items.map(|(k, v)| (k.clone(), from_value(v))).collect()
    };
    match v {
        AvroValue::Null => Value::Null,
        AvroValue::Boolean(b) => Value::Bool(*b),
        AvroValue::Int(i) => Value::Int(*i),
        AvroValue::Long(i) => Value::Long(*i),
        AvroValue::Float(x) => Value::Float(x.to_bits()),
        AvroValue::Double(x) => Value::Double(x.to_bits()),
        AvroValue::Bytes(b) => Value::Bytes(b.clone()),
        AvroValue::String(s) => Value::Str(s.clone()),
        AvroValue::Array(items) => Value::Array(items.iter().map(from_value).collect()),
        AvroValue::Map(items) => {
            let mut p = pairs(&mut items.iter());
            p.sort_by(|a, b| a.0.as_bytes().cmp(b.0.as_bytes()));
            Value::Map(p)
        }
        AvroValue::Union(i, v) => Value::Union(*i, Box::new(from_value(v))),
        AvroValue::Record(items) => Value::Record(pairs(&mut items.iter().map(|(k, v)| (k, v)))),
        AvroValue::Enum(i, s) => Value::Enum(*i, s.clone()),
        AvroValue::Fixed(size, b) => {
            assert_eq!(*size, b.len());
            Value::Fixed(b.clone())
        }
        AvroValue::Decimal(d) => Value::Decimal(decimal_bytes(d)),
        AvroValue::Uuid(u) => Value::Uuid(*u.as_bytes()),
        AvroValue::Date(i) => Value::Time32(0x10, *i),
        AvroValue::TimeMillis(i) => Value::Time32(0x11, *i),
        AvroValue::TimeMicros(i) => Value::Time64(0x12, *i),
        AvroValue::TimestampMillis(i) => Value::Time64(0x13, *i),
        AvroValue::TimestampMicros(i) => Value::Time64(0x14, *i),
        AvroValue::TimestampNanos(i) => Value::Time64(0x15, *i),
        AvroValue::LocalTimestampMillis(i) => Value::Time64(0x16, *i),
        AvroValue::LocalTimestampMicros(i) => Value::Time64(0x17, *i),
        AvroValue::LocalTimestampNanos(i) => Value::Time64(0x18, *i),
        AvroValue::Duration(d) => Value::Duration(d.into()),
        AvroValue::BigDecimal(_) => unreachable!(),
    }
}

/// "AvroValue and length together are the bytes." The crate's own way back to bytes fails for
/// length 0 (its BigInt writes zero in one byte); there the bytes are none.
fn decimal_bytes(d: &Decimal) -> Vec<u8> {
    match Vec::<u8>::try_from(d) {
        Ok(b) => b,
        Err(e) => match e.details() {
            Details::SignExtend { requested: 0, .. } => vec![],
            _ => panic!("decimal: {e}"),
        },
    }
}
