//! A schema frame as the crate's `Schema`, with checks 2 and 3 on the way. A frame has no schema
//! names, so every named schema gets the same one. Number 4 is not looked for: the crate has none.
use super::reader::Reader;
use apache_avro::Schema;
use apache_avro::schema::{
    ArraySchema, DecimalSchema, EnumSchema, FixedSchema, InnerDecimalSchema, MapSchema, Name, RecordField,
    RecordSchema, SchemaKind, UnionSchema, UuidSchema,
};
use oracle::frame::{MAX_DEPTH, MAX_FRAME};
use oracle::plain::convert::schema_kind;
use serde_json::{Map, Number, Value as Json};
use std::collections::BTreeMap;

/// `None`: the schema is no frame or is unsound.
pub fn read_schema(frame: &[u8]) -> Option<Schema> {
    if frame.len() > MAX_FRAME {
        return None;
    }
    let mut r = Reader(frame);
    let s = schema(&mut r, MAX_DEPTH)?;
    r.0.is_empty().then_some(s)
}

/// The node at the front; `depth` levels may still come.
fn schema(r: &mut Reader, depth: usize) -> Option<Schema> {
    if depth == 0 {
        return None;
    }
    let depth = depth - 1;
    Some(match r.n8()? {
        0x08 => {
            Schema::Array(ArraySchema { items: Box::new(schema(r, depth)?), attributes: BTreeMap::new() })
        }
        0x09 => Schema::Map(MapSchema { types: Box::new(schema(r, depth)?), attributes: BTreeMap::new() }),
        0x0a => Schema::Union(union(r, depth)?),
        0x0b => Schema::Record(record(r, depth)?),
        0x0c => Schema::Enum(enumeration(r)?),
        0x0d => Schema::Fixed(fixed(r.n16()?)),
        0x0e => Schema::Decimal(decimal(r)?),
        0x0f => Schema::Uuid(match r.n8()? {
            0 => UuidSchema::Bytes,
            1 => UuidSchema::String,
            2 => UuidSchema::Fixed(fixed_of(r, 16)?),
            _ => return None,
        }),
        0x19 => Schema::Duration(fixed_of(r, 12)?),
        kind => plain(kind)?,
    })
}

fn plain(kind: u8) -> Option<Schema> {
    Some(match kind {
        0x00 => Schema::Null,
        0x01 => Schema::Boolean,
        0x02 => Schema::Int,
        0x03 => Schema::Long,
        0x04 => Schema::Float,
        0x05 => Schema::Double,
        0x06 => Schema::Bytes,
        0x07 => Schema::String,
        0x10 => Schema::Date,
        0x11 => Schema::TimeMillis,
        0x12 => Schema::TimeMicros,
        0x13 => Schema::TimestampMillis,
        0x14 => Schema::TimestampMicros,
        0x15 => Schema::TimestampNanos,
        0x16 => Schema::LocalTimestampMillis,
        0x17 => Schema::LocalTimestampMicros,
        0x18 => Schema::LocalTimestampNanos,
        _ => return None,
    })
}

fn name() -> Name {
    Name::new("n").unwrap()
}

fn fixed(size: usize) -> FixedSchema {
    FixedSchema { name: name(), aliases: None, doc: None, size, attributes: BTreeMap::new() }
}

fn fixed_of(r: &mut Reader, size: usize) -> Option<FixedSchema> {
    (r.n16()? == size).then(|| fixed(size))
}

fn decimal(r: &mut Reader) -> Option<DecimalSchema> {
    let (precision, scale) = (r.n32()? as usize, r.n32()? as usize);
    let inner =
        if r.flag()? { InnerDecimalSchema::Fixed(fixed(r.n16()?)) } else { InnerDecimalSchema::Bytes };
    Some(DecimalSchema { precision, scale, inner })
}

fn enumeration(r: &mut Reader) -> Option<EnumSchema> {
    let n = r.n16()?;
    let mut symbols = Vec::with_capacity(n.min(r.0.len()));
    for _ in 0..n {
        symbols.push(r.text()?);
    }
    let default = if r.flag()? { Some(r.text()?) } else { None };
    Some(EnumSchema { name: name(), aliases: None, doc: None, symbols, default, attributes: BTreeMap::new() })
}

fn record(r: &mut Reader, depth: usize) -> Option<RecordSchema> {
    let n = r.n16()?;
    let (mut fields, mut lookup) = (Vec::with_capacity(n.min(r.0.len())), BTreeMap::new());
    for i in 0..n {
        let field = field(r, depth)?;
        if lookup.insert(field.name.clone(), i).is_some() {
            return None;
        }
        fields.push(field);
    }
    Some(RecordSchema { name: name(), aliases: None, doc: None, fields, lookup, attributes: BTreeMap::new() })
}

fn field(r: &mut Reader, depth: usize) -> Option<RecordField> {
    let name = r.text()?;
    let default = if r.flag()? { Some(json(r, MAX_DEPTH)?) } else { None };
    let schema = schema(r, depth)?;
    Some(RecordField {
        name,
        doc: None,
        aliases: vec![],
        default,
        schema,
        custom_attributes: BTreeMap::new(),
    })
}

fn union(r: &mut Reader, depth: usize) -> Option<UnionSchema> {
    let n = r.n16()?;
    let mut variants = Vec::with_capacity(n.min(r.0.len()));
    for _ in 0..n {
        variants.push(schema(r, depth).filter(|s| !matches!(s, Schema::Union(_)))?);
    }
    let kinds = kind_table(r, n)?;
    let mut named = Vec::new();
    for _ in 0..r.n16()? {
        named.push(r.n16().filter(|p| *p < n)?);
    }
    (n > 0).then(|| UnionSchema::oracle_with_tables(variants, kinds, named))
}

fn kind_table(r: &mut Reader, variants: usize) -> Option<BTreeMap<SchemaKind, usize>> {
    let (mut table, mut last) = (BTreeMap::new(), None);
    for _ in 0..r.n16()? {
        let (kind, position) = (r.n8()?, r.n16()?);
        if kind > 0x19 || position >= variants || last.is_some_and(|l| l >= kind) {
            return None;
        }
        last = Some(kind);
        table.insert(schema_kind(kind), position);
    }
    Some(table)
}

/// A default, as the JSON that the crate keeps.
fn json(r: &mut Reader, depth: usize) -> Option<Json> {
    if depth == 0 {
        return None;
    }
    Some(match r.n8()? {
        0x00 => Json::Null,
        0x01 => Json::Bool(r.flag()?),
        0x02 => Json::from(r.n32()? as i32),
        0x03 => Json::from(r.n64().filter(|n| i32::try_from(*n).is_err())?),
        0x05 => Json::Number(Number::from_f64(f64::from_bits(r.n64()? as u64))?),
        0x07 => Json::String(r.text()?),
        0x08 => {
            let n = r.n16()?;
            Json::Array((0..n).map(|_| json(r, depth - 1)).collect::<Option<_>>()?)
        }
        0x09 => Json::Object(object(r, depth - 1)?),
        _ => return None,
    })
}

fn object(r: &mut Reader, depth: usize) -> Option<Map<String, Json>> {
    let n = r.n16()?;
    let (mut items, mut last) = (Map::new(), None);
    for _ in 0..n {
        let key = r.part()?;
        if last.is_some_and(|l| l >= key) {
            return None;
        }
        last = Some(key);
        items.insert(key.to_string(), json(r, depth)?);
    }
    Some(items)
}
