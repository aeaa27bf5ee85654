// Where a schema is said to be unsound.
use crate::common::{bytes, fixed, nullable, record};
use hulmbax::frame::FrameError;
use hulmbax::schema::{UnionSchema, UuidSchema};
use hulmbax::{Error, Reader, RecordField, Refusal, Schema, Value};

fn unsound(schema: &Schema) -> (String, Refusal) {
    let error = schema.check().expect_err("this is to be refused");
    assert_eq!(Reader::new(schema).unwrap_err(), error);
    (error.path().to_string(), error.refusal().unwrap())
}

fn at(path: &str) -> (String, Refusal) {
    (path.to_string(), Refusal::SchemaUnsound)
}

#[test]
fn a_sound_schema_passes() {
    let sailor = record([("age", nullable(Schema::Int))]);
    let sound = [
        Schema::Null,
        nullable(Schema::Double),
        Schema::map(Schema::array(sailor)),
        Schema::record(vec![]),
        Schema::Uuid(UuidSchema::Fixed(fixed(16))),
    ];
    for schema in sound {
        assert_eq!(schema.check(), Ok(()));
        assert_eq!(Reader::new(&schema).unwrap().schema(), &schema);
    }
}

#[test]
fn at_the_root() {
    assert_eq!(unsound(&Schema::Duration(fixed(11))), at(""));
    assert_eq!(unsound(&Schema::union(vec![]).unwrap()), at(""));
    let twice = record([("sail", Schema::Int), ("sail", Schema::Int)]);
    assert_eq!(unsound(&twice), at(""));
}

#[test]
fn in_the_parts() {
    let wrong = || Schema::Duration(fixed(11));
    assert_eq!(unsound(&Schema::array(wrong())), at("[items]"));
    assert_eq!(unsound(&Schema::map(wrong())), at("[values]"));
    assert_eq!(unsound(&nullable(wrong())), at("[variant 1]"));
    let boat = record([("sail", Schema::String), ("time", nullable(wrong()))]);
    let race = record([("race", Schema::Int), ("boats", Schema::array(boat))]);
    assert_eq!(unsound(&race), at("boats[items].time[variant 1]"));
}

#[test]
fn in_a_default() {
    let field =
        |schema, default| Schema::record(vec![RecordField::new("a", schema).with_default(default)]);
    let date = Value::Date(1);
    assert_eq!(
        unsound(&field(Schema::Date, date.clone())),
        at("a (default)")
    );
    let inner = field(Schema::Date, date);
    assert_eq!(unsound(&field(inner, Value::Int(1))), at("a.a (default)"));
}

#[test]
fn a_default_that_is_too_long() {
    let notes = Schema::union(vec![Schema::String, Schema::Null]).unwrap();
    let long = RecordField::new("notes", notes).with_default("x".repeat(5_000));
    let schema = record([("boat", Schema::record(vec![long]))]);
    let too_long = ("boat.notes (default)".to_string(), Refusal::DefaultTooLong);
    assert_eq!(unsound(&schema), too_long);
}

#[test]
fn tables_that_point_past_the_variants() {
    let union = UnionSchema::with_tables(vec![Schema::Null], vec![(0, 1)], vec![]);
    assert_eq!(unsound(&record([("a", Schema::Union(union))])), at("a"));
}

#[test]
fn a_schema_without_a_frame_is_not_asked_about() {
    let deep = (1..17).fold(Schema::Null, |s, _| Schema::array(s));
    assert_eq!(deep.check(), Err(Error::Frame(FrameError::TooDeep)));
}

// What the check says is what every record gets, whatever it is.
#[test]
fn the_check_agrees_with_the_library() {
    let schema = Schema::Duration(fixed(11));
    let frame = schema.to_frame().unwrap();
    for record in [bytes("00"), bytes(""), bytes("1a")] {
        assert_eq!(
            crate::common::resolved(&frame, &record),
            Err(Refusal::SchemaUnsound)
        );
    }
}
