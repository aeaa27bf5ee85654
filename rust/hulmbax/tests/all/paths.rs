// Where a refused record is said to be wrong.
use crate::common::{decimal, fixed, nullable, record, symbols};
use hulmbax::path::Step;
use hulmbax::schema::{InnerDecimalSchema, UnionSchema, UuidSchema};
use hulmbax::{Error, Reader, RecordField, Refusal, Schema, Value};

// The error of a record that is refused, which is the same by way of frames.
fn error(schema: &Schema, sent: &Value) -> Error {
    let mut reader = Reader::new(schema).unwrap();
    let error = reader.resolve(sent).expect_err("this is to be refused");
    let frame = sent.to_frame().unwrap();
    assert_eq!(reader.resolve_frame(&frame), Err(error.clone()));
    error
}

// The path of an error and its refusal.
fn place(error: &Error) -> (String, Refusal) {
    (error.path().to_string(), error.refusal().unwrap())
}

fn at(path: &str, refusal: Refusal) -> (String, Refusal) {
    (path.to_string(), refusal)
}

fn refused(schema: &Schema, sent: &Value) -> (String, Refusal) {
    place(&error(schema, sent))
}

fn sailor(age: impl Into<Value>) -> Value {
    Value::record([("age", age.into())])
}

fn sailor_schema() -> Schema {
    record([("age", Schema::Int)])
}

#[test]
fn in_records_and_arrays() {
    let boat = record([
        ("sail", Schema::String),
        ("crew", Schema::array(sailor_schema())),
    ]);
    let schema = record([("race", Schema::Int), ("boat", boat)]);
    let crew = Value::array([sailor(31), sailor(29), sailor("old"), sailor("young")]);
    let boat = Value::record([("crew", crew), ("sail", Value::from("A 12"))]);
    let sent = Value::record([("boat", boat), ("race", Value::from(1))]);
    let error = error(&schema, &sent);
    assert_eq!(place(&error), at("boat.crew[2].age", Refusal::Unsuited));
    let text = "boat.crew[2].age: a value is of a kind";
    assert!(error.to_string().starts_with(text), "{error}");
}

#[test]
fn the_first_field_of_the_schema_comes_first() {
    let schema = record([("b", Schema::Int), ("a", Schema::Int)]);
    let long = || Value::Long(i64::MAX);
    let both = Value::record([("a", long()), ("b", long())]);
    assert_eq!(refused(&schema, &both), at("b", Refusal::LongOutsideInt));
    let either = Value::record([("a", Value::Null), ("b", long())]);
    assert_eq!(refused(&schema, &either), at("b", Refusal::LongOutsideInt));
}

#[test]
fn the_last_of_two_equal_names_counts() {
    let schema = record([("a", Schema::Int), ("b", Schema::Int)]);
    let fields = [("a", Value::Null), ("b", Value::Null), ("a", Value::Int(1))];
    assert_eq!(
        refused(&schema, &Value::record(fields)),
        at("b", Refusal::Unsuited)
    );
}

#[test]
fn in_a_map_the_first_key() {
    let schema = record([("marks", Schema::map(Schema::Double))]);
    let marks = Value::map([
        ("windward", Value::from("far")),
        ("leeward", Value::from("near")),
        ("gate", Value::Int(5)),
    ]);
    let sent = Value::record([("marks", marks)]);
    assert_eq!(
        refused(&schema, &sent),
        at("marks[\"leeward\"]", Refusal::Unsuited)
    );
}

#[test]
fn a_bad_map_gives_the_refusal_of_its_first_failing_key() {
    let schema = Schema::map(Schema::Int);
    let (large, text) = (Value::Long(1 << 31), Value::from("late"));
    let marks = |gate: &Value, windward: &Value| {
        let fine = Value::Int(5);
        let entries = [("windward", windward), ("gate", gate), ("finish", &fine)];
        Value::map(entries.map(|(key, value)| (key, value.clone())))
    };
    assert_eq!(
        refused(&schema, &marks(&large, &text)),
        at("[\"gate\"]", Refusal::LongOutsideInt)
    );
    assert_eq!(
        refused(&schema, &marks(&text, &large)),
        at("[\"gate\"]", Refusal::Unsuited)
    );
    let by_default = RecordField::new("marks", schema).with_default(marks(&large, &text));
    assert_eq!(
        refused(
            &Schema::record(vec![by_default]),
            &Value::record::<&str>([])
        ),
        at("marks (default)", Refusal::LongOutsideInt)
    );
}

#[test]
fn in_a_map_that_stands_for_a_record() {
    let sent = Value::map([("age", Value::from("old")), ("sail", Value::Null)]);
    assert_eq!(
        refused(&sailor_schema(), &sent),
        at("age", Refusal::Unsuited)
    );
}

#[test]
fn a_field_that_is_missing() {
    let schema = Schema::array(sailor_schema());
    let sent = Value::array([sailor(31), Value::record([("Age", Value::Int(29))])]);
    assert_eq!(
        refused(&schema, &sent),
        at("[1].age", Refusal::FieldMissing)
    );
}

#[test]
fn a_default_that_the_schema_itself_can_t_take() {
    let rating = RecordField::new("rating", Schema::Double).with_default("none");
    let schema = Schema::record(vec![RecordField::new("sail", Schema::Int), rating]);
    let sent = Value::record([("sail", Value::Int(7))]);
    let error = error(&schema, &sent);
    assert_eq!(place(&error), at("rating (default)", Refusal::Unsuited));
    let steps = [Step::Field("rating".to_string()), Step::Default];
    assert_eq!(error.path().steps(), steps);
}

#[test]
fn at_the_root() {
    assert_eq!(
        refused(&Schema::Int, &Value::Null),
        at("", Refusal::Unsuited)
    );
    assert_eq!(
        refused(&sailor_schema(), &Value::Int(1)),
        at("", Refusal::Unsuited)
    );
    assert_eq!(
        refused(&Schema::array(Schema::Int), &sailor(1)),
        at("", Refusal::Unsuited)
    );
    assert_eq!(
        refused(&Schema::map(Schema::Int), &sailor(1)),
        at("", Refusal::Unsuited)
    );
}

#[test]
fn each_kind_of_leaf() {
    let leaves = [
        (Schema::Int, Value::Long(i64::MIN), Refusal::LongOutsideInt),
        (Schema::Float, Value::from(f64::NAN), Refusal::NotANumber),
        (Schema::String, Value::from(vec![0xff_u8]), Refusal::NotUtf8),
        (
            Schema::Uuid(UuidSchema::String),
            Value::from("K 17"),
            Refusal::UuidWrong,
        ),
        (
            decimal(1, 2, InnerDecimalSchema::Bytes),
            Value::Null,
            Refusal::ScaleExceedsPrecision,
        ),
        (
            decimal(3, 0, InnerDecimalSchema::Bytes),
            Value::Decimal(vec![1]),
            Refusal::BytesTooFew,
        ),
        (
            symbols(&["ok"], None),
            Value::from("dnf"),
            Refusal::SymbolUnknown,
        ),
    ];
    for (schema, sent, refusal) in leaves {
        let schema = record([("leaf", schema)]);
        assert_eq!(
            refused(&schema, &Value::record([("leaf", sent)])),
            at("leaf", refusal)
        );
    }
}

#[test]
fn the_first_of_many_items() {
    let schema = Schema::array(Schema::Int);
    for n in [1, 2, 3, 7, 64, 100] {
        for first in 0..n {
            let mut items = vec![Value::Int(1); n];
            items[first..].fill(Value::Null);
            let path = format!("[{first}]");
            assert_eq!(
                refused(&schema, &Value::Array(items)),
                at(&path, Refusal::Unsuited)
            );
        }
    }
}

#[test]
fn an_item_that_is_no_byte() {
    let union = |item| Value::Union(0, Box::new(item));
    let items = [
        (Value::Int(256), Refusal::ItemOutsideByte),
        (union(Value::Int(-1)), Refusal::ItemOutsideByte),
        (Value::Long(i64::MAX), Refusal::LongOutsideInt),
        (union(union(Value::Int(1))), Refusal::Unsuited),
    ];
    for (item, refusal) in items {
        let sent = Value::array([Value::Int(0), union(Value::Int(255)), item]);
        assert_eq!(refused(&Schema::Bytes, &sent), at("[2]", refusal));
    }
}

#[test]
fn a_union_of_null_and_another_has_that_one_s_refusal_as_its_cause() {
    let schema = record([("elapsed", nullable(Schema::Double))]);
    let error = error(
        &schema,
        &Value::record([("elapsed", Value::from("1:02:05"))]),
    );
    assert_eq!(place(&error), at("elapsed", Refusal::NoVariant));
    assert_eq!(place(error.root_cause()), at("elapsed", Refusal::Unsuited));
}

#[test]
fn a_nullable_sail_number_of_the_wrong_length_says_so() {
    let schema = record([("sail", nullable(Schema::Fixed(fixed(4))))]);
    let finish = |sail: &str| Value::record([("sail", sail.into())]);
    let error = error(&schema, &finish("K 7"));
    assert_eq!(place(&error), at("sail", Refusal::NoVariant));
    assert_eq!(place(error.root_cause()), at("sail", Refusal::SizeDiffers));
    let taken = Reader::new(&schema).unwrap().resolve(&finish("K 17"));
    let sail = Value::Union(1, Box::new(Value::Fixed(4, b"K 17".to_vec())));
    assert_eq!(taken.unwrap().get("sail"), Some(&sail));
}

#[test]
fn the_cause_lies_within_an_optional_record() {
    let crew = Schema::array(nullable(sailor_schema()));
    let schema = record([("boat", nullable(record([("crew", crew)])))]);
    let crew = Value::array([Value::Null, sailor(31), Value::from(Some(sailor("old")))]);
    let sent = Value::record([("boat", Value::record([("crew", crew)]))]);
    let error = error(&schema, &sent);
    assert_eq!(place(&error), at("boat", Refusal::NoVariant));
    let Error::Refused {
        cause: Some(cause), ..
    } = &error
    else {
        panic!("{error:?}");
    };
    assert_eq!(place(cause), at("boat.crew[2]", Refusal::NoVariant));
    assert_eq!(
        place(error.root_cause()),
        at("boat.crew[2].age", Refusal::Unsuited)
    );
}

#[test]
fn an_array_in_a_union_is_tried() {
    let schema = nullable(Schema::array(Schema::Int));
    let error = error(&schema, &Value::array([Value::Int(1), Value::from("x")]));
    assert_eq!(place(&error), at("", Refusal::NoVariant));
    assert_eq!(place(error.root_cause()), at("[1]", Refusal::Unsuited));
}

#[test]
fn an_array_that_was_tried_is_the_cause_even_where_it_gives_the_same_answer() {
    let schema = nullable(Schema::array(nullable(Schema::Int)));
    let error = error(&schema, &Value::array([Value::Int(1), Value::from("x")]));
    assert_eq!(place(&error), at("", Refusal::NoVariant));
    let Error::Refused {
        cause: Some(cause), ..
    } = &error
    else {
        panic!("{error:?}");
    };
    assert_eq!(place(cause), at("[1]", Refusal::NoVariant));
    assert_eq!(place(error.root_cause()), at("[1]", Refusal::Unsuited));
}

#[test]
fn a_union_of_several_has_no_cause() {
    let schema = Schema::union(vec![Schema::Null, Schema::Int, sailor_schema()]).unwrap();
    let error = error(&schema, &sailor("old"));
    assert_eq!(place(&error), at("", Refusal::NoVariant));
    assert_eq!(error.root_cause(), &error);
}

#[test]
fn a_variant_of_the_kind_table_is_taken_untried_and_refuses_for_the_union() {
    let uuid = Schema::Uuid(UuidSchema::String);
    let schema = record([("id", Schema::union(vec![Schema::Int, uuid]).unwrap())]);
    let error = error(&schema, &Value::record([("id", Value::from("K 17"))]));
    assert_eq!(place(&error), at("id", Refusal::UuidWrong));
    assert_eq!(error.root_cause(), &error);
}

// A table that the crate's builder would not make leads a Map to a Record.
#[test]
fn within_a_variant_that_is_taken_untried() {
    let variants = vec![Schema::Null, record([("age", nullable(Schema::Int))])];
    let union = UnionSchema::with_tables(variants, vec![(0, 0), (9, 1)], vec![]);
    let sent = Value::map([("age", Value::from("old"))]);
    let error = error(&Schema::Union(union), &sent);
    assert_eq!(place(&error), at("age", Refusal::NoVariant));
    assert_eq!(place(error.root_cause()), at("age", Refusal::Unsuited));
}

#[test]
fn one_union_is_peeled_off_a_value() {
    let union = |value| Value::Union(0, Box::new(value));
    let sent = union(Value::record([("age", union(Value::from("old")))]));
    assert_eq!(
        refused(&sailor_schema(), &sent),
        at("age", Refusal::Unsuited)
    );
    let twice = union(union(sailor("old")));
    assert_eq!(refused(&sailor_schema(), &twice), at("", Refusal::Unsuited));
}

#[test]
fn a_result_that_is_too_long_is_the_root_s() {
    let items = Value::Array(vec![Value::Int(1); 12_000]);
    let longs = || Schema::array(Schema::Long);
    let schema = record([("a", longs())]);
    let sent = Value::record([("a", items.clone())]);
    assert_eq!(refused(&schema, &sent), at("", Refusal::ResultTooLong));

    // where the record is refused for its content, such a part is passed over
    let schema = record([("a", longs()), ("b", Schema::Int)]);
    let sent = Value::record([("a", items), ("b", Value::Null)]);
    assert_eq!(refused(&schema, &sent), at("b", Refusal::Unsuited));
}

#[test]
fn sixteen_deep() {
    let schema = (1..16).fold(Schema::Int, |s, _| record([("f", s)]));
    let sent = (1..16).fold(Value::Null, |v, _| Value::record([("f", v)]));
    let path = ["f"; 15].join(".");
    assert_eq!(refused(&schema, &sent), at(&path, Refusal::Unsuited));
}

#[test]
fn bytes_that_are_no_frame() {
    let mut reader = Reader::new(&Schema::Int).unwrap();
    let error = reader.resolve_frame(&[2, 0, 0]).unwrap_err();
    assert_eq!(place(&error), at("", Refusal::RecordNoFrame));
}
