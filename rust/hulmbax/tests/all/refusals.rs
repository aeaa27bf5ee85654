// A schema and a record for each refusal of docs/RULES.md that stops a record; those of a list of
// finishes are in current.rs, those of the calendar in calendar.rs.
use crate::common::{decimal, fixed, nullable, record, resolved, symbols};
use hulmbax::frame::{resolve, RESULT_LEN, WORKSPACE_LEN};
use hulmbax::schema::{InnerDecimalSchema, UnionSchema, UuidSchema};
use hulmbax::{RecordField, Refusal, Schema, Value};

// What stops the record.
fn refused(schema: &Schema, value: impl Into<Value>) -> Refusal {
    let error = value.into().resolve(schema);
    error.expect_err("this is to be refused").refusal().unwrap()
}

#[test]
fn refusal_1_workspace_too_short() {
    let mut result = [0; 5];
    let mut workspace = vec![0; WORKSPACE_LEN - 1];
    let answer = resolve(&[2], &[2, 0, 0, 0, 1], &mut result, &mut workspace);
    assert_eq!(answer, Err(Refusal::WorkspaceTooShort));
}

#[test]
fn refusal_2_schema_no_frame() {
    let record = Value::Int(1).to_frame().unwrap();
    for schema in [&[][..], &[0x1a], &[2, 2], &[0x0d, 0]] {
        assert_eq!(resolved(schema, &record), Err(Refusal::SchemaNoFrame));
    }
}

#[test]
fn refusal_3_schema_unsound() {
    let twice = record([("sail", Schema::Int), ("sail", Schema::Int)]);
    let float_default = RecordField::new("elapsed", Schema::Float).with_default(1.0_f32);
    let past = UnionSchema::with_tables(vec![Schema::Null], vec![(0, 1)], vec![]);
    let unsound = [
        twice,
        Schema::record(vec![float_default]),
        Schema::Union(past),
        Schema::union(vec![]).unwrap(),
        Schema::Duration(fixed(11)),
        Schema::Uuid(UuidSchema::Fixed(fixed(15))),
    ];
    for schema in unsound {
        assert_eq!(refused(&schema, Value::Null), Refusal::SchemaUnsound);
    }
}

#[test]
fn refusal_4_default_too_long() {
    let notes = Schema::union(vec![Schema::String, Schema::Null]).unwrap();
    let field = |n| RecordField::new("notes", notes.clone()).with_default("x".repeat(n));
    let none = Value::Record(vec![]);
    let long = Schema::record(vec![field(4_094)]);
    assert_eq!(refused(&long, none.clone()), Refusal::DefaultTooLong);
    let fits = Schema::record(vec![field(4_093)]);
    assert!(none.resolve(&fits).is_ok());
}

#[test]
fn refusal_5_record_no_frame() {
    let falling = [9, 0, 2, 0, 1, b'b', 0, 0, 1, b'a', 0];
    for record in [&[][..], &[2, 0, 0, 0], &[1, 2], &[7, 0, 1, 0xff], &falling] {
        assert_eq!(resolved(&[0], record), Err(Refusal::RecordNoFrame));
    }
}

#[test]
fn refusal_6_unsuited() {
    assert_eq!(refused(&Schema::Int, "5"), Refusal::Unsuited);
    assert_eq!(refused(&Schema::Double, "nan"), Refusal::Unsuited);
}

#[test]
fn refusal_7_long_outside_int() {
    let long = Value::Long(-2_147_483_649);
    assert_eq!(refused(&Schema::Int, long), Refusal::LongOutsideInt);
}

#[test]
fn refusal_8_item_outside_byte() {
    let items = Value::Array(vec![Value::Int(255), Value::Int(256)]);
    assert_eq!(refused(&Schema::Bytes, items), Refusal::ItemOutsideByte);
}

#[test]
fn refusal_9_not_utf8() {
    let sent = Value::Bytes(vec![0xc0, 0x80]);
    assert_eq!(refused(&Schema::String, sent), Refusal::NotUtf8);
}

#[test]
fn refusal_10_size_differs() {
    let fixed = Schema::Fixed(fixed(4));
    for sent in [Value::Fixed(2, vec![1, 2]), "K 7".into(), "K 177".into()] {
        assert_eq!(refused(&fixed, sent), Refusal::SizeDiffers);
    }
}

#[test]
fn refusal_11_uuid_wrong() {
    let uuid = Schema::Uuid(UuidSchema::String);
    assert_eq!(refused(&uuid, "K 17"), Refusal::UuidWrong);
}

#[test]
fn refusal_12_scale_exceeds_precision() {
    let schema = decimal(4, 5, InnerDecimalSchema::Bytes);
    assert_eq!(
        refused(&schema, Value::Null),
        Refusal::ScaleExceedsPrecision
    );
}

#[test]
fn refusal_13_fixed_too_small() {
    let schema = decimal(3, 0, InnerDecimalSchema::Fixed(fixed(1)));
    assert_eq!(refused(&schema, Value::Null), Refusal::FixedTooSmall);
}

#[test]
fn refusal_14_bytes_too_few() {
    let schema = decimal(3, 0, InnerDecimalSchema::Bytes);
    for sent in [Value::Decimal(vec![1]), "1".into()] {
        assert_eq!(refused(&schema, sent), Refusal::BytesTooFew);
    }
}

#[test]
fn refusal_15_symbol_unknown() {
    let sent = Value::Enum(0, "sunk".to_string());
    for default in [None, Some("lost")] {
        let status = symbols(&["finished", "retired"], default);
        assert_eq!(refused(&status, sent.clone()), Refusal::SymbolUnknown);
    }
}

#[test]
fn refusal_16_no_variant() {
    let elapsed = nullable(Schema::Double);
    assert_eq!(refused(&elapsed, "none"), Refusal::NoVariant);
}

#[test]
fn refusal_17_field_missing() {
    let schema = record([("sail", Schema::String)]);
    let none = Value::record([("Sail", Value::from("K 17"))]);
    assert_eq!(refused(&schema, none), Refusal::FieldMissing);
}

#[test]
fn refusal_18_result_too_long() {
    // an item has 5 bytes as an Int and 9 as a Long
    let items = Value::Array(vec![Value::Int(1); 13_000]);
    assert!(items.to_frame().unwrap().len() <= RESULT_LEN);
    let longs = Schema::array(Schema::Long);
    assert_eq!(refused(&longs, items), Refusal::ResultTooLong);
}

#[test]
fn refusal_28_not_a_number() {
    let nans: [Value; 3] = [f32::NAN.into(), f64::NAN.into(), "NaN".into()];
    for schema in [Schema::Float, Schema::Double] {
        for nan in &nans {
            assert_eq!(refused(&schema, nan.clone()), Refusal::NotANumber);
        }
    }
}
