// Values and schemas to frames and back: each kind, the limits, what is no frame, union tables.
use crate::common::{bytes, decimal, fixed, nullable, symbols};
use hulmbax::frame::{kind, FrameError, MAX_FRAME};
use hulmbax::schema::{InnerDecimalSchema, UnionSchema, UuidSchema};
use hulmbax::{Duration, Error, RecordField, Schema, Value};

fn wrong<T>(error: FrameError) -> Result<T, Error> {
    Err(Error::Frame(error))
}

fn text(text: &str) -> String {
    text.to_string()
}

/// A value of each kind, in the order of the kinds, and its frame; a line each.
#[rustfmt::skip]
pub fn values() -> Vec<(Value, &'static str)> {
    let duration = Duration {
        months: 1,
        days: 2,
        millis: 0x0304,
    };
    vec![
        (Value::Null, "00"),
        (Value::Boolean(true), "0101"),
        (Value::Int(-1), "02ffffffff"),
        (Value::Long(3601), "030000000000000e11"),
        (Value::Float(0.5), "043f000000"),
        (Value::Double(3600.5), "0540ac210000000000"),
        (Value::Bytes(vec![0, 255]), "06000200ff"),
        (Value::String(text("é")), "070002c3a9"),
        (Value::Array(vec![Value::Null, Value::Int(1)]), "080002000200000001"),
        (Value::Map([(text("a"), Value::Null), (text("b"), Value::Null)].into()), "0900020001610000016200"),
        (Value::Union(1, Box::new(Value::Null)), "0a0000000100"),
        (Value::Record(vec![(text("b"), Value::Null), (text("a"), Value::Null)]), "0b00020001620000016100"),
        (Value::Enum(2, text("dnf")), "0c000000020003646e66"),
        (Value::Fixed(2, vec![1, 2]), "0d00020102"),
        (Value::Decimal(vec![0xff]), "0e0001ff"),
        (Value::Uuid([7; 16]), "0f07070707070707070707070707070707"),
        (Value::Date(1), "1000000001"),
        (Value::TimeMillis(1), "1100000001"),
        (Value::TimeMicros(1), "120000000000000001"),
        (Value::TimestampMillis(1), "130000000000000001"),
        (Value::TimestampMicros(1), "140000000000000001"),
        (Value::TimestampNanos(1), "150000000000000001"),
        (Value::LocalTimestampMillis(1), "160000000000000001"),
        (Value::LocalTimestampMicros(1), "170000000000000001"),
        (Value::LocalTimestampNanos(1), "180000000000000001"),
        (Value::Duration(duration), "19010000000200000004030000"),
    ]
}

/// Schemas of each kind, in the order of the kinds, and their frames; a line each.
#[rustfmt::skip]
fn schemas() -> Vec<(Schema, &'static str)> {
    let field = RecordField::new("a", Schema::Int);
    let defaulted = field.clone().with_default(Value::Int(5));
    vec![
        (Schema::Null, "00"),
        (Schema::Boolean, "01"),
        (Schema::Int, "02"),
        (Schema::Long, "03"),
        (Schema::Float, "04"),
        (Schema::Double, "05"),
        (Schema::Bytes, "06"),
        (Schema::String, "07"),
        (Schema::array(Schema::Int), "0802"),
        (Schema::map(Schema::Int), "0902"),
        (nullable(Schema::Double), "0a0002000500020000000500010000"),
        (Schema::record(vec![field]), "0b00010001610002"),
        (Schema::record(vec![defaulted]), "0b000100016101020000000502"),
        (symbols(&["a", "b"], None), "0c000200016100016200"),
        (symbols(&["a", "b"], Some("b")), "0c000200016100016201000162"),
        (Schema::Fixed(fixed(4)), "0d0004"),
        (decimal(5, 2, InnerDecimalSchema::Bytes), "0e000000050000000200"),
        (decimal(5, 2, InnerDecimalSchema::Fixed(fixed(3))), "0e0000000500000002010003"),
        (Schema::Uuid(UuidSchema::Bytes), "0f00"),
        (Schema::Uuid(UuidSchema::String), "0f01"),
        (Schema::Uuid(UuidSchema::Fixed(fixed(16))), "0f020010"),
        (Schema::Date, "10"),
        (Schema::TimeMillis, "11"),
        (Schema::TimeMicros, "12"),
        (Schema::TimestampMillis, "13"),
        (Schema::TimestampMicros, "14"),
        (Schema::TimestampNanos, "15"),
        (Schema::LocalTimestampMillis, "16"),
        (Schema::LocalTimestampMicros, "17"),
        (Schema::LocalTimestampNanos, "18"),
        (Schema::Duration(fixed(12)), "19000c"),
    ]
}

#[test]
fn each_kind_of_value_goes_there_and_back() {
    let values = values();
    assert!(values.iter().map(|(v, _)| v.kind()).eq(0..=kind::DURATION));
    for (value, digits) in values {
        assert_eq!(value.to_frame(), Ok(bytes(digits)), "{value:?}");
        assert_eq!(Value::from_frame(&bytes(digits)), Ok(value));
    }
}

#[test]
fn each_kind_of_schema_goes_there_and_back() {
    let mut kinds: Vec<u8> = schemas().iter().map(|(s, _)| s.kind()).collect();
    kinds.dedup();
    assert!(kinds.into_iter().eq(0..=kind::DURATION));
    for (schema, digits) in schemas() {
        assert_eq!(schema.to_frame(), Ok(bytes(digits)), "{schema:?}");
        assert_eq!(Schema::from_frame(&bytes(digits)), Ok(schema));
    }
}

#[test]
fn every_cut_frame_is_short_and_every_longer_one_has_a_rest() {
    for (_, digits) in values() {
        let frame = bytes(digits);
        for n in 0..frame.len() {
            assert_eq!(Value::from_frame(&frame[..n]), wrong(FrameError::Short));
        }
        let longer = [frame, vec![0]].concat();
        assert_eq!(Value::from_frame(&longer), wrong(FrameError::Rest(1)));
    }
    for (_, digits) in schemas() {
        let frame = bytes(digits);
        for n in 0..frame.len() {
            assert_eq!(Schema::from_frame(&frame[..n]), wrong(FrameError::Short));
        }
        let longer = [frame, vec![0]].concat();
        assert_eq!(Schema::from_frame(&longer), wrong(FrameError::Rest(1)));
    }
}

#[test]
fn what_is_no_frame_of_a_value() {
    let broken = [
        ("1a", FrameError::Kind(0x1a)),
        ("0102", FrameError::Flag(2)),
        ("070001ff", FrameError::Utf8),
        ("0900020001620000016100", FrameError::Keys),
        ("0900020001610000016100", FrameError::Keys),
    ];
    for (digits, error) in broken {
        assert_eq!(Value::from_frame(&bytes(digits)), wrong(error), "{digits}");
    }
    assert_eq!(
        Value::from_frame(&[0; MAX_FRAME + 1]),
        wrong(FrameError::TooLong)
    );
}

#[test]
fn what_is_no_frame_of_a_schema() {
    let broken = [
        ("1a", FrameError::Kind(0x1a)),
        ("0f03", FrameError::Flag(3)),
        ("0b00010001610202", FrameError::Flag(2)),
        ("0c00010001ff00", FrameError::Utf8),
    ];
    for (digits, error) in broken {
        assert_eq!(Schema::from_frame(&bytes(digits)), wrong(error), "{digits}");
    }
}

// A value so many nodes deep.
fn deep_value(depth: usize) -> Value {
    (1..depth).fold(Value::Null, |v, _| Value::Array(vec![v]))
}

// A schema so many nodes deep.
fn deep_schema(depth: usize) -> Schema {
    (1..depth).fold(Schema::Null, |s, _| Schema::array(s))
}

#[test]
fn sixteen_is_the_deepest() {
    let value = deep_value(16).to_frame().unwrap();
    assert_eq!(Value::from_frame(&value), Ok(deep_value(16)));
    assert_eq!(deep_value(17).to_frame(), wrong(FrameError::TooDeep));
    let deeper = [bytes("080001"), value].concat();
    assert_eq!(Value::from_frame(&deeper), wrong(FrameError::TooDeep));

    let schema = deep_schema(16).to_frame().unwrap();
    assert_eq!(Schema::from_frame(&schema), Ok(deep_schema(16)));
    assert_eq!(deep_schema(17).to_frame(), wrong(FrameError::TooDeep));
    let deeper = [bytes("08"), schema].concat();
    assert_eq!(Schema::from_frame(&deeper), wrong(FrameError::TooDeep));
}

#[test]
fn a_default_starts_at_depth_one_again() {
    let field = |depth| RecordField::new("a", Schema::Null).with_default(deep_value(depth));
    let schema = Schema::record(vec![field(16)]);
    assert_eq!(Schema::from_frame(&schema.to_frame().unwrap()), Ok(schema));
    let deeper = Schema::record(vec![field(17)]);
    assert_eq!(deeper.to_frame(), wrong(FrameError::TooDeep));
}

#[test]
fn what_has_no_room_in_a_frame() {
    let longest = Value::Bytes(vec![0; MAX_FRAME - 3]);
    assert_eq!(longest.to_frame().map(|f| f.len()), Ok(MAX_FRAME));
    let longer = Value::Bytes(vec![0; MAX_FRAME - 2]);
    assert_eq!(longer.to_frame(), wrong(FrameError::TooLong));
    let no_length = Value::Bytes(vec![0; MAX_FRAME + 1]);
    assert_eq!(no_length.to_frame(), wrong(FrameError::TooLarge));
    let no_size = Schema::Fixed(fixed(MAX_FRAME + 1));
    assert_eq!(no_size.to_frame(), wrong(FrameError::TooLarge));
    let other_size = Value::Fixed(3, vec![0; 2]);
    assert_eq!(other_size.to_frame(), wrong(FrameError::FixedSize));
}

#[test]
fn the_tables_of_a_union() {
    let union = UnionSchema::new(vec![
        Schema::Duration(fixed(12)),
        Schema::TimestampNanos,
        Schema::Uuid(UuidSchema::Fixed(fixed(16))),
        Schema::record(vec![]),
        Schema::Uuid(UuidSchema::String),
        decimal(5, 2, InnerDecimalSchema::Fixed(fixed(3))),
        Schema::Date,
        symbols(&["a", "b"], None),
        decimal(5, 2, InnerDecimalSchema::Bytes),
        Schema::Null,
        Schema::Fixed(fixed(4)),
        Schema::array(Schema::Int),
    ])
    .unwrap();
    let kinds = [
        (kind::NULL, 9),
        (kind::INT, 6),
        (kind::LONG, 1),
        (kind::BYTES, 8),
        (kind::STRING, 4),
        (kind::ARRAY, 11),
    ];
    assert_eq!(union.variant_index(), kinds);
    assert_eq!(union.named_index(), [0, 2, 3, 5, 7, 10]);
    assert_eq!(union.variants().len(), 12);
}

#[test]
fn what_makes_no_union() {
    let union = |variants| UnionSchema::new(variants).map(|_| ());
    let nested = nullable(Schema::Int);
    assert_eq!(union(vec![nested]), wrong(FrameError::NestedUnion));
    let same = vec![Schema::Long, Schema::Null, Schema::TimeMicros];
    assert_eq!(union(same), wrong(FrameError::Duplicate(kind::LONG)));
    let named = vec![Schema::Fixed(fixed(4)), Schema::Duration(fixed(12))];
    assert_eq!(union(named), Ok(()));
}

#[test]
fn other_tables_are_kept() {
    let union = UnionSchema::with_tables(vec![Schema::Int], vec![(9, 0), (3, 7)], vec![5]);
    let schema = Schema::Union(union);
    let frame = schema.to_frame().unwrap();
    assert_eq!(frame, bytes("0a000102000209000003000700010005"));
    assert_eq!(Schema::from_frame(&frame), Ok(schema));
}
