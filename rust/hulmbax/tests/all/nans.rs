// A NaN: no result holds one, and a frame holds any.
use crate::common::{bytes, holds_nan, nullable, record};
use hulmbax::schema::UnionSchema;
use hulmbax::{current, Error, Reader, RecordField, Refusal, Schema, Value};

/// Frames of NaNs: a Float and a Double, quiet and signalling, of both signs, of the least and the
/// greatest payload.
const NANS: [&str; 16] = [
    "047fc00000",
    "047fffffff",
    "04ffc00000",
    "04ffffffff",
    "047f800001",
    "047fbfffff",
    "04ff800001",
    "04ffbfffff",
    "057ff8000000000000",
    "057fffffffffffffff",
    "05fff8000000000000",
    "05ffffffffffffffff",
    "057ff0000000000001",
    "057ff7ffffffffffff",
    "05fff0000000000001",
    "05fff7ffffffffffff",
];

fn nans() -> impl Iterator<Item = Value> {
    NANS.iter()
        .map(|digits| Value::from_frame(&bytes(digits)).unwrap())
}

// What stops the record, and where.
fn refused(schema: &Schema, sent: &Value) -> (String, Refusal) {
    let error = sent.resolve(schema).expect_err("this is to be refused");
    (error.path().to_string(), error.refusal().unwrap())
}

fn at(path: &str, refusal: Refusal) -> (String, Refusal) {
    (path.to_string(), refusal)
}

// A boat and its elapsed time, if it has one.
fn sheet() -> Reader {
    let elapsed = nullable(Schema::Double);
    Reader::new(&record([("sail", Schema::String), ("elapsed", elapsed)])).unwrap()
}

fn finish(elapsed: impl Into<Value>) -> Value {
    Value::record([("sail", "B 19".into()), ("elapsed", elapsed.into())])
}

#[test]
fn a_frame_keeps_the_bits_of_a_nan() {
    for digits in NANS {
        let value = Value::from_frame(&bytes(digits)).unwrap();
        assert!(holds_nan(&value), "{digits}");
        assert_eq!(value.to_frame(), Ok(bytes(digits)));
        let within = Value::map([("elapsed", Value::array([value]))]);
        let frame = within.to_frame().unwrap();
        assert!(frame.ends_with(&bytes(digits)), "{digits}");
        assert_eq!(Value::from_frame(&frame).unwrap().to_frame(), Ok(frame));
    }
}

#[test]
fn a_nan_is_refused_kept_or_converted() {
    for schema in [Schema::Float, Schema::Double] {
        let mut reader = Reader::new(&schema).unwrap();
        for nan in nans() {
            let error = reader.resolve(&nan).unwrap_err();
            assert_eq!(error, Refusal::NotANumber.into(), "{schema}, {nan}");
            let inside = Value::Union(7, Box::new(nan));
            let frame = inside.to_frame().unwrap();
            assert_eq!(reader.resolve_frame(&frame), Err(error), "{schema}");
        }
    }
}

#[test]
fn a_nan_where_no_float_is_asked_for_is_of_another_kind() {
    for schema in [Schema::Int, Schema::Long, Schema::String, Schema::Null] {
        for nan in nans() {
            assert_eq!(refused(&schema, &nan), at("", Refusal::Unsuited));
        }
    }
}

#[test]
fn of_the_texts_only_nan_is_one() {
    for schema in [Schema::Float, Schema::Double] {
        let refused = |text: &str| refused(&schema, &text.into());
        assert_eq!(refused("NaN"), at("", Refusal::NotANumber));
        for text in ["nan", "NAN", "-NaN", "+NaN", "NaN ", "Na", "NaNs", ""] {
            assert_eq!(refused(text), at("", Refusal::Unsuited), "{text}");
        }
    }
    let text = Value::from("NaN");
    assert_eq!(text.resolve(&Schema::String).as_ref(), Ok(&text));
}

#[test]
fn infinities_pass() {
    for sign in [1.0, -1.0] {
        let float = Value::Float(f32::INFINITY * sign);
        let double = Value::Double(f64::INFINITY * f64::from(sign));
        let words = match sign > 0.0 {
            true => ["INF", "Infinity"],
            false => ["-INF", "-Infinity"],
        };
        let [short, long] = words.map(Value::from);
        for sent in [&float, &double, &short, &long] {
            assert_eq!(sent.resolve(&Schema::Float).as_ref(), Ok(&float), "{sent}");
            let got = sent.resolve(&Schema::Double);
            assert_eq!(got.as_ref(), Ok(&double), "{sent}");
        }
        // a Double that is too large for a Float
        let large = Value::Double(f64::MAX * f64::from(sign));
        assert_eq!(large.resolve(&Schema::Float).as_ref(), Ok(&float));
    }
}

#[test]
fn what_is_next_to_an_infinity_passes() {
    for digits in ["047f7fffff", "04ff7fffff"] {
        let value = Value::from_frame(&bytes(digits)).unwrap();
        assert_eq!(value.resolve(&Schema::Float).as_ref(), Ok(&value));
    }
    for digits in ["057fefffffffffffff", "05ffefffffffffffff"] {
        let value = Value::from_frame(&bytes(digits)).unwrap();
        assert_eq!(value.resolve(&Schema::Double).as_ref(), Ok(&value));
    }
}

#[test]
fn at_any_depth() {
    let times = Schema::map(Schema::array(nullable(Schema::Double)));
    let schema = record([("race", Schema::Int), ("times", times)]);
    let sent = |last: Value| {
        let laps = Value::array([Value::from(60.5), Value::Null, last]);
        let times = Value::map([("A 12", Value::array([61.0])), ("B 19", laps)]);
        Value::record([("race", Value::from(1)), ("times", times)])
    };
    assert!(sent(f64::INFINITY.into()).resolve(&schema).is_ok());
    let path = "times[\"B 19\"][2]";
    assert_eq!(
        refused(&schema, &sent(f64::NAN.into())),
        at(path, Refusal::NotANumber)
    );
    assert_eq!(
        refused(&schema, &sent(f32::NAN.into())),
        at(path, Refusal::NoVariant)
    );
}

#[test]
fn under_a_name_that_the_schema_lacks_it_does_no_harm() {
    let schema = record([("sail", Schema::String)]);
    let mut reader = Reader::new(&schema).unwrap();
    let meant = Value::record([("sail", Value::from("B 19"))]);
    for nan in nans() {
        assert_eq!(reader.resolve(&finish(nan)).as_ref(), Ok(&meant));
    }
    assert_eq!(reader.resolve(&finish("NaN")).as_ref(), Ok(&meant));
    // of a name that repeats, the last counts
    let schema = record([("elapsed", Schema::Double)]);
    let twice = |values: [f64; 2]| Value::record(values.map(|x| ("elapsed", Value::from(x))));
    assert!(twice([f64::NAN, 60.5]).resolve(&schema).is_ok());
    assert_eq!(
        refused(&schema, &twice([60.5, f64::NAN])),
        at("elapsed", Refusal::NotANumber)
    );
}

#[test]
fn in_the_place_of_6_among_other_refusals() {
    let schema = record([
        ("a", Schema::Int),
        ("b", Schema::Double),
        ("c", Schema::Int),
    ]);
    let sent = |a: Value, b: Value| Value::record([("a", a), ("b", b), ("c", Value::Null)]);
    let nan = || Value::from(f64::NAN);
    let large = Value::Long(1 << 31);
    assert_eq!(
        refused(&schema, &sent(large, nan())),
        at("a", Refusal::LongOutsideInt)
    );
    assert_eq!(
        refused(&schema, &sent(Value::Int(1), nan())),
        at("b", Refusal::NotANumber)
    );
    assert_eq!(
        refused(&schema, &sent(Value::Int(1), 0.5.into())),
        at("c", Refusal::Unsuited)
    );
    let marks = Value::map([("leeward", nan()), ("windward", Value::from("far"))]);
    assert_eq!(
        refused(&Schema::map(Schema::Double), &marks),
        at("[\"leeward\"]", Refusal::NotANumber)
    );
}

#[test]
fn a_nullable_double_that_is_a_nan_is_refused_at_its_field() {
    let mut reader = sheet();
    for sent in [finish(f64::NAN), finish(Some(f64::NAN))] {
        let error = reader.resolve(&sent).unwrap_err();
        assert_eq!(error.refusal(), Some(Refusal::NotANumber));
        assert_eq!(error.path().to_string(), "elapsed");
        assert_eq!(error.root_cause(), &error);
        let text = "elapsed: a NaN, or the text NaN, stands where";
        assert!(error.to_string().starts_with(text), "{error}");
        assert!(error.to_string().ends_with("(refusal 28)"), "{error}");
    }
}

#[test]
fn a_nullable_double_that_is_the_text_nan_has_28_as_its_source() {
    use std::error::Error as _;
    let mut reader = sheet();
    for sent in [finish("NaN"), finish(f32::NAN)] {
        let error = reader.resolve(&sent).unwrap_err();
        assert_eq!(error.refusal(), Some(Refusal::NoVariant));
        assert_eq!(error.path().to_string(), "elapsed");
        let source = error.source().and_then(|e| e.downcast_ref::<Error>());
        let source = source.expect("a nullable pair tells its cause");
        assert_eq!(source.refusal(), Some(Refusal::NotANumber));
        assert_eq!(source.path().to_string(), "elapsed");
        assert_eq!(error.root_cause(), source);
    }
}

#[test]
fn a_refused_trial_leaves_the_choice_to_later_variants() {
    let union = |variants| Schema::Union(UnionSchema::with_tables(variants, vec![], vec![]));
    let text = Value::from("NaN");
    let chosen = |schema: Schema| match text.resolve(&schema) {
        Ok(Value::Union(i, value)) => (i, *value),
        other => panic!("{other:?}"),
    };
    let octets = Value::Bytes(b"NaN".to_vec());
    assert_eq!(
        chosen(union(vec![Schema::Double, Schema::Bytes])),
        (1, octets)
    );
    let variants = vec![Schema::Float, Schema::Double, Schema::String];
    assert_eq!(chosen(union(variants)), (2, text.clone()));
    let floats = union(vec![Schema::Float, Schema::Double]);
    for sent in nans().chain([text.clone()]) {
        assert_eq!(refused(&floats, &sent), at("", Refusal::NoVariant));
    }
    // one of several fields of a Record that is tried
    let boat = record([("sail", Schema::String), ("elapsed", Schema::Double)]);
    let either = Schema::union(vec![boat, record([("sail", Schema::String)])]).unwrap();
    let meant = Value::record([("sail", Value::from("B 19"))]);
    assert_eq!(
        finish(f64::NAN).resolve(&either),
        Ok(Value::Union(1, Box::new(meant)))
    );
}

#[test]
fn a_variant_of_the_kind_table_is_taken_untried_and_refuses_for_the_union() {
    let schema = Schema::union(vec![Schema::Float, Schema::Double, Schema::Null]).unwrap();
    for nan in nans() {
        assert_eq!(refused(&schema, &nan), at("", Refusal::NotANumber));
    }
}

#[test]
fn a_default_text_passes_the_check_and_is_refused_in_use() {
    let elapsed = |schema, default: &str| {
        Schema::record(vec![
            RecordField::new("sail", Schema::String),
            RecordField::new("elapsed", schema).with_default(default),
        ])
    };
    let lacking = Value::record([("sail", Value::from("B 19"))]);
    let double_or_null = Schema::union(vec![Schema::Double, Schema::Null]).unwrap();
    for schema in [Schema::Double, Schema::Float, double_or_null] {
        let schema = elapsed(schema, "NaN");
        assert_eq!(schema.check(), Ok(()));
        assert_eq!(
            refused(&schema, &lacking),
            at("elapsed (default)", Refusal::NotANumber)
        );
        assert!(finish(60.5).resolve(&schema).is_ok());
    }
    // Null stands first, and takes any default
    let null_or_double = elapsed(nullable(Schema::Double), "NaN");
    let got = lacking.resolve(&null_or_double).unwrap();
    assert!(got.get("elapsed").is_some_and(Value::is_null));
    let got = lacking.resolve(&elapsed(Schema::Double, "-INF")).unwrap();
    let least = got.get("elapsed").and_then(Value::as_f64);
    assert_eq!(least, Some(f64::NEG_INFINITY));
}

// A list may be of results that were stored when a NaN was one.
#[test]
fn stored_finishes_with_a_nan_are_named_current() {
    let stored = |seq: i64, elapsed: Value| {
        Value::record([
            ("sail", "B 19".into()),
            ("seq", seq.into()),
            ("elapsed", Some(elapsed).into()),
        ])
    };
    for nan in nans() {
        let list = [
            stored(0, 3655.5.into()),
            stored(2, nan),
            stored(1, 3702.5.into()),
        ];
        assert_eq!(current(&list), Ok(vec![1]));
    }
}
