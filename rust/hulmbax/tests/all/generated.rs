// What holds of every schema and value, over many that are made by chance.
use crate::common::{holds_nan, resolved};
use crate::generate::Generator;
use hulmbax::path::{Path, Step};
use hulmbax::schema::RecordField;
use hulmbax::{Error, Reader, Refusal, Schema, Value};

const SCHEMAS: usize = 400;
const VALUES: usize = 12;

// Calls `check` with schemas and values of theirs, a reader of the schema first.
fn each(
    seed: u64,
    value: fn(&mut Generator, &Schema) -> Value,
    mut check: impl FnMut(&mut Reader, &Value),
) {
    let mut generator = Generator::new(seed);
    for _ in 0..SCHEMAS {
        let schema = generator.schema();
        let mut reader = Reader::new(&schema).unwrap_or_else(|e| panic!("{schema}: {e}"));
        for _ in 0..VALUES {
            check(&mut reader, &value(&mut generator, &schema));
        }
    }
}

#[test]
fn every_schema_goes_to_a_frame_and_back() {
    each(1, Generator::fitting, |reader, _| {
        let schema = reader.schema();
        let frame = schema.to_frame().unwrap();
        assert_eq!(Schema::from_frame(&frame).as_ref(), Ok(schema));
    });
}

#[test]
fn every_value_goes_to_a_frame_and_back() {
    let mut nans = 0;
    each(2, Generator::near, |_, value| {
        let frame = value.to_frame().unwrap();
        let back = Value::from_frame(&frame).unwrap();
        // a NaN isn't equal to itself, and its frame is
        match holds_nan(value) {
            true => nans += 1,
            false => assert_eq!(&back, value),
        }
        assert_eq!(back.to_frame(), Ok(frame));
    });
    assert!(nans > 100, "{nans}");
}

#[test]
fn every_text_is_one_line() {
    each(3, Generator::near, |reader, value| {
        for text in [reader.schema().to_string(), value.to_string()] {
            assert!(
                !text.is_empty() && !text.chars().any(char::is_control),
                "{text}"
            );
        }
    });
}

#[test]
fn a_value_that_fits_is_brought_to_itself() {
    each(4, Generator::fitting, |reader, value| {
        assert_eq!(
            reader.resolve(value).as_ref(),
            Ok(value),
            "{}",
            reader.schema()
        );
    });
}

#[test]
fn a_reader_answers_what_the_library_answers() {
    let (mut accepted, mut refused) = (0, 0);
    each(5, Generator::near, |reader, value| {
        let schema = reader.schema().to_frame().unwrap();
        let frame = resolved(&schema, &value.to_frame().unwrap());
        match reader.resolve(value) {
            Ok(got) => {
                accepted += 1;
                assert_eq!(Ok(got.to_frame().unwrap()), frame);
            }
            Err(error) => {
                refused += 1;
                assert_eq!(error.refusal(), frame.err());
            }
        }
    });
    assert!(accepted > 1_000 && refused > 1_000, "{accepted} {refused}");
}

#[test]
fn no_accepted_result_holds_a_nan() {
    let (mut accepted, mut refused) = (0, 0);
    each(7, Generator::near, |reader, value| {
        match reader.resolve(value) {
            Ok(got) => {
                accepted += 1;
                assert!(!holds_nan(&got), "{}, {value}: {got}", reader.schema());
            }
            Err(error) => {
                let cause = error.root_cause().refusal();
                refused += usize::from(cause == Some(Refusal::NotANumber));
            }
        }
    });
    assert!(accepted > 1_000 && refused > 30, "{accepted} {refused}");
}

// The parts of schema and value that a path leads to are refused for the same reason by themselves.
#[test]
fn a_path_leads_to_what_is_refused() {
    let (mut deep, mut causes) = (0, 0);
    each(6, Generator::near, |reader, value| {
        let Err(error) = reader.resolve(value) else {
            return;
        };
        let mut next = Some(&error);
        while let Some(Error::Refused {
            refusal,
            path,
            cause,
            ..
        }) = next
        {
            let got = at(reader.schema(), value, path);
            // the same place has two errors where a union has one that is its only variant's
            assert!(
                got.contains(refusal),
                "{error}: {got:?}, {}, {value}",
                reader.schema()
            );
            // a union tells why its one variant besides Null refused, where that was tried
            let in_default = path.steps().last() == Some(&Step::Default);
            let tried = *refusal == Refusal::NoVariant && !in_default;
            assert_eq!(
                cause.is_some(),
                tried,
                "{error}: {}, {value}",
                reader.schema()
            );
            deep += usize::from(path.steps().len() > 1);
            causes += usize::from(cause.is_some());
            next = cause.as_deref();
        }
    });
    assert!(deep > 100 && causes > 100, "{deep} {causes}");
}

// The refusals of the part at a path: that of the schema there and, if it is a union, that of its
// other variant.
fn at(schema: &Schema, value: &Value, path: &Path) -> Vec<Refusal> {
    let (mut schema, mut value) = (schema.clone(), value.clone());
    for step in path.steps() {
        if let Schema::Union(union) = &schema {
            value = peeled(value);
            schema = union.variants()[1].clone();
        }
        (schema, value) = child(&schema, peeled(value), step);
    }
    let mut refusals = vec![refusal(&schema, &value)];
    if let Schema::Union(union) = &schema {
        refusals.push(refusal(&union.variants()[1], &peeled(value)));
    }
    refusals.into_iter().flatten().collect()
}

fn child(schema: &Schema, value: Value, step: &Step) -> (Schema, Value) {
    match (schema, step) {
        (Schema::Record(record), Step::Field(name)) => {
            let mut fields = record.fields.iter();
            let field = fields.find(|field| field.name == *name).unwrap();
            match value.get(name) {
                Some(inner) => (field.schema.clone(), inner.clone()),
                None => missing(field),
            }
        }
        // what `missing` gave stands for the default too
        (_, Step::Default) => (schema.clone(), value),
        (Schema::Array(array), Step::Index(i)) => (
            (*array.items).clone(),
            value.as_array().unwrap()[*i].clone(),
        ),
        (Schema::Bytes, Step::Index(i)) => {
            let item = value.as_array().unwrap()[*i].clone();
            (Schema::Bytes, Value::array([item]))
        }
        (Schema::Map(map), Step::Key(key)) => {
            ((*map.types).clone(), value.get(key).unwrap().clone())
        }
        other => panic!("no such step: {other:?}"),
    }
}

// A record that lacks the field, under a schema of that field alone.
fn missing(field: &RecordField) -> (Schema, Value) {
    (Schema::record(vec![field.clone()]), Value::Record(vec![]))
}

fn peeled(value: Value) -> Value {
    match value {
        Value::Union(_, inner) => *inner,
        other => other,
    }
}

fn refusal(schema: &Schema, value: &Value) -> Option<Refusal> {
    resolved(&schema.to_frame().unwrap(), &value.to_frame().unwrap()).err()
}
