//! The answer to a schema frame and a value frame: the checks of the scope around the crate's
//! `Value::resolve_with_names` with an empty map of names. Compiled for either judge.
use super::avro::{
    Error, Schema as AvroSchema,
    error::Details,
    schema::{Name, RecordSchema},
    types::Value as AvroValue,
    watch,
};
use super::convert::{Namer, from_value, to_json, to_schema, to_value};
use crate::answer::{Answer, Refusal, refused};
use crate::frame::{self, Schema, Value};
use crate::generate::Case;
use std::any::Any;
use std::collections::{BTreeMap, BTreeSet, HashMap};
use std::panic::{AssertUnwindSafe, catch_unwind};

type Names = HashMap<Name, AvroSchema>;

/// The number of the scope for an error of the crate.
pub fn number(e: &Error) -> u8 {
    use Details::*;
    match e.details() {
        GetNull(_)
        | GetBoolean(_)
        | GetInt(_)
        | GetLong(_)
        | GetFloat(_)
        | GetDouble(_)
        | GetBytes(_)
        | GetString(_)
        | GetStringForFixed(_)
        | GetEnum(_)
        | GetArray { .. }
        | GetMap { .. }
        | GetRecord { .. }
        | GetUuid(_)
        | ResolveDuration(_)
        | ResolveDecimal(_)
        | GetDate(_)
        | GetTimeMillis(_)
        | GetTimeMicros(_)
        | GetTimestampMillis(_)
        | GetTimestampMicros(_)
        | GetTimestampNanos(_)
        | GetLocalTimestampMillis(_)
        | GetLocalTimestampMicros(_)
        | GetLocalTimestampNanos(_) => 6,
        ZagI32(..) => 7,
        GetU8(_) => 8,
        ConvertToUtf8(_) => 9,
        CompareFixedSizes { .. } | GetDurationFixedBytes(_) | ConvertFixedToUuid(_) => 10,
        ConvertStrToUuid(_) | ConvertSliceToUuid(_) => 11,
        GetScaleAndPrecision { .. } => 12,
        GetScaleWithFixedSize { .. } => 13,
        ComparePrecisionAndSize { .. } => 14,
        GetEnumDefault { .. } => 15,
        FindUnionVariant { .. } => 16,
        GetField(_) => 17,
        NanResult => 28,
        other => panic!("no number for {other:?}"),
    }
}

fn resolve(v: AvroValue, s: &AvroSchema, names: &Names) -> Result<AvroValue, Error> {
    v.resolve_with_names(s, names)
}

/// A schema that passed 2, 3 and 4.
pub struct Prepared {
    pub tree: Schema,
    schema: AvroSchema,
    names: Names,
}

/// Checks 2, 3 and 4.
pub fn prepare(bytes: Option<&[u8]>) -> Result<Prepared, u8> {
    let tree = bytes.and_then(|b| frame::read_schema(b).ok()).ok_or(2)?;
    if !frame::schema_ok(&tree) {
        return Err(3);
    }
    let schema = to_schema(&tree, &mut Namer::default());
    let names = Names::new();
    if !defaults_short(&schema, &names) {
        return Err(4);
    }
    Ok(Prepared { tree, schema, names })
}

/// Check 4: at each union field with a default, the length of the node that the first variant
/// makes of the default (without the Union around it); a Null first variant makes a Null.
fn defaults_short(s: &AvroSchema, names: &Names) -> bool {
    match s {
        AvroSchema::Array(a) => defaults_short(&a.items, names),
        AvroSchema::Map(m) => defaults_short(&m.types, names),
        AvroSchema::Union(u) => u.variants().iter().all(|v| defaults_short(v, names)),
        AvroSchema::Record(r) => r.fields.iter().all(|f| {
            if let (Some(d), AvroSchema::Union(u)) = (&f.default, &f.schema)
                && !matches!(u.variants()[0], AvroSchema::Null)
                && let Ok(v) = resolve(AvroValue::try_from(d.clone()).unwrap(), &u.variants()[0], names)
                && frame::value_frame(&from_value(&v)).len() > 4096
            {
                return false;
            }
            defaults_short(&f.schema, names)
        }),
        _ => true,
    }
}

/// What the crate makes of a default under a schema that passed 3, if it accepts it.
pub fn made(default: &Value, s: &Schema) -> Option<Value> {
    let default = AvroValue::try_from(to_json(default)).unwrap();
    let v = resolve(default, &to_schema(s, &mut Namer::default()), &Names::new()).ok()?;
    Some(from_value(&v))
}

/// Checks 5 to 18, and 28, for one value.
fn answer(p: &Prepared, bytes: Option<&[u8]>) -> Answer {
    let Some(tree) = bytes.and_then(|b| frame::read_value(b).ok()) else {
        return refused(5);
    };
    let value = to_value(&tree);
    let again = value.clone();
    match catch_unwind(AssertUnwindSafe(|| resolve(value, &p.schema, &p.names))) {
        Err(e) => Answer::Panic(panic_text(e)),
        Ok(Err(e)) => {
            let by_crate = number(&e);
            let n = numbers(again, &p.schema, &p.names).expect("refused once, then accepted");
            assert!(n.admitted.contains(&by_crate), "{by_crate} is not among {:?}", n.admitted);
            Answer::Refused(Refusal { number: n.first, admitted: n.admitted, by_crate })
        }
        Ok(Ok(v)) => {
            let out = frame::value_frame(&from_value(&v));
            if out.len() > frame::MAX_FRAME { refused(18) } else { Answer::Accepted(out) }
        }
    }
}

fn panic_text(e: Box<dyn Any + Send>) -> String {
    let text = e.downcast_ref::<String>().cloned().or(e.downcast_ref::<&str>().map(|s| s.to_string()));
    text.unwrap_or_default().replace('\n', " ")
}

/// The answers to a schema frame and value frames; `None` is a line that holds none. Each with whether a NaN
/// was refused on the way to it: for the value, in trials too, or where number 4 resolves the schema's
/// defaults, which is on the way to every answer under the schema.
pub fn watched(schema: Option<&[u8]>, values: &[Option<&[u8]>]) -> Vec<(Answer, bool)> {
    watch::take_nan();
    let prepared = prepare(schema);
    let always = watch::take_nan();
    let one = |v: &Option<&[u8]>| {
        let answer = prepared.as_ref().map_or_else(|n| refused(*n), |p| answer(p, *v));
        (answer, watch::take_nan() || always)
    };
    values.iter().map(one).collect()
}

/// The answers alone.
pub fn answers(schema: Option<&[u8]>, values: &[Option<&[u8]>]) -> Vec<Answer> {
    watched(schema, values).into_iter().map(|(answer, _)| answer).collect()
}

pub fn of_case((schema, values): &Case) -> Vec<Answer> {
    let values: Vec<_> = values.iter().map(|v| Some(v.as_slice())).collect();
    answers(Some(schema), &values)
}

/// The answers that program `resolve` of the scope gives to this input.
pub fn of_input(input: &[u8]) -> Vec<Answer> {
    let lines: Vec<_> = frame::lines(input).into_iter().map(frame::unhex).collect();
    let Some((schema, values)) = lines.split_first() else { return vec![] };
    let values: Vec<_> = values.iter().map(|v| v.as_deref()).collect();
    answers(schema.as_deref(), &values)
}

/// The numbers of a refused value.
struct Numbers {
    /// Where a map fails, that of its first failing entry in key order.
    first: u8,
    /// Where a map fails, those of all its failing entries.
    admitted: BTreeSet<u8>,
}

impl From<u8> for Numbers {
    fn from(n: u8) -> Self {
        Numbers { first: n, admitted: BTreeSet::from([n]) }
    }
}

/// The numbers of a value, if it is refused. Follows the walk of the crate down to the place where
/// it stops; each step asks the crate.
fn numbers(v: AvroValue, s: &AvroSchema, names: &Names) -> Option<Numbers> {
    let own = number(&resolve(v.clone(), s, names).err()?);
    let v = match (v, s) {
        (v @ AvroValue::Union(..), AvroSchema::Union(_)) => v,
        (AvroValue::Union(_, inner), _) => *inner,
        (v, _) => v,
    };
    match (v, s) {
        (AvroValue::Map(items), AvroSchema::Map(m)) => of_entries(items, &m.types, names),
        (AvroValue::Array(items), AvroSchema::Array(a)) => {
            items.into_iter().find_map(|v| numbers(v, &a.items, names))
        }
        (v, AvroSchema::Union(u)) => {
            let v = match v {
                AvroValue::Union(_, v) => *v,
                v => v,
            };
            match u.find_schema_with_known_schemata(&v, Some(names), None) {
                None => Some(own.into()),
                Some((_, inner)) => {
                    let inner = inner.clone();
                    numbers(v, &inner, names)
                }
            }
        }
        (AvroValue::Map(items), AvroSchema::Record(r)) => of_fields(items, r, names),
        (AvroValue::Record(items), AvroSchema::Record(r)) => of_fields(items.into_iter().collect(), r, names),
        _ => Some(own.into()),
    }
}

/// The numbers of a map whose values have one schema: that of the first failing entry in key order
/// and for the crate each failing entry's.
fn of_entries(items: HashMap<String, AvroValue>, s: &AvroSchema, names: &Names) -> Option<Numbers> {
    let by_key: BTreeMap<Vec<u8>, AvroValue> = items.into_iter().map(|(k, v)| (k.into_bytes(), v)).collect();
    let mut failing = by_key.into_values().filter_map(|v| numbers(v, s, names));
    let Numbers { first, mut admitted } = failing.next()?;
    admitted.extend(failing.flat_map(|n| n.admitted));
    Some(Numbers { first, admitted })
}

fn of_fields(mut items: HashMap<String, AvroValue>, r: &RecordSchema, names: &Names) -> Option<Numbers> {
    r.fields.iter().find_map(|f| match (items.remove(&f.name), &f.default) {
        (Some(v), _) => numbers(v, &f.schema, names),
        (None, None) => Some(17.into()),
        (None, Some(d)) => of_default(AvroValue::try_from(d.clone()).unwrap(), &f.schema, names),
    })
}

fn of_default(d: AvroValue, s: &AvroSchema, names: &Names) -> Option<Numbers> {
    let AvroSchema::Union(u) = s else {
        return numbers(d, s, names);
    };
    let first = &u.variants()[0];
    let made = match first {
        AvroSchema::Null => Ok(AvroValue::Null),
        _ => resolve(d.clone(), first, names),
    };
    match made {
        Err(_) => numbers(d, first, names),
        Ok(v) => numbers(AvroValue::Union(0, Box::new(v)), s, names),
    }
}
