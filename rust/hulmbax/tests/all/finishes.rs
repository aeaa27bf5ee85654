// The finishes to check by of docs/RULES.md, and its example of program `resolve`.
use crate::common::{bytes, decimal, line, nullable, resolved};
use hulmbax::schema::InnerDecimalSchema;
use hulmbax::{Refusal, Schema, Value};

/// A schema, a record and the answer's line.
const FINISHES: [(&str, &str, &str); 40] = [
    ("02", "03000000007fffffff", "+ 027fffffff"),
    ("02", "030000000080000000", "- 7"),
    ("04", "0201000001", "+ 044b800000"),
    ("04", "0201000003", "+ 044b800002"),
    ("05", "030020000000000001", "+ 054340000000000000"),
    ("05", "0700034e614e", "- 28"),
    ("0d0004", "0700026162", "- 10"),
    ("0d0004", "0600026162", "- 10"),
    (NULLABLE_DOUBLE, "00", "+ 0a0000000000"),
    (
        NULLABLE_DOUBLE,
        "0200000005",
        "+ 0a00000001054014000000000000",
    ),
    ("02", "0a000000000a000000000200000005", "- 6"),
    (
        "0902",
        "0900020001610300000000800000000001620700046c617465",
        "- 7",
    ),
    (
        "0902",
        "0900020001610700046c617465000162030000000080000000",
        "- 6",
    ),
    (
        "0902",
        "09000300016102000000010001620700046c617465000163030000000080000000",
        "- 6",
    ),
    (
        "0b000100016d010900020001610300000000800000000001620700046c6174650902",
        "0b0000",
        "- 7",
    ),
    (
        "0b000100016d010900020001610700046c6174650001620300000000800000000902",
        "0b0000",
        "- 6",
    ),
    (
        "0b000100016d010900020001610300000000800000000001620700046c6174650a0001090200010900000000",
        "0b0000",
        "- 7",
    ),
    ("0d0004", "070004c3a96162", "+ 0d0004c3a96162"),
    ("0e000000040000000000", "07000161", "- 14"),
    ("0e000000040000000000", "0700026162", "+ 0e00026162"),
    ("0e000000040000000000", "070002c480", "- 6"),
    ("0b00010001610107000261620d0004", "0b0000", "- 10"),
    (
        "0b000100016101070001610e000000040000000000",
        "0b0000",
        "- 14",
    ),
    (
        "0b00010001610107000261620a00020d000407000107000100010000",
        "0b0000",
        "- 10",
    ),
    ("0a0002000d0004000100000000010001", "0700026162", "- 16"),
    (
        "0a00020d00040700000000",
        "0700026162",
        "+ 0a000000010700026162",
    ),
    ("05", "057ff0000000000001", "- 28"),
    ("05", "047fc00001", "- 28"),
    ("04", "05fff8000000000000", "- 28"),
    ("04", "057ff0000000000000", "+ 047f800000"),
    ("05", "070003494e46", "+ 057ff0000000000000"),
    (NULLABLE_DOUBLE, "057ff8000000000000", "- 28"),
    (NULLABLE_DOUBLE, "0700034e614e", "- 16"),
    (NULLABLE_DOUBLE, "047fc00000", "- 16"),
    (
        "0a0002050700000000",
        "0700034e614e",
        "+ 0a000000010700034e614e",
    ),
    ("0805", "080002053ff0000000000000057ff8000000000000", "- 28"),
    (
        "0b00010001610002",
        "0b00020001610200000001000162057ff8000000000000",
        "+ 0b00010001610200000001",
    ),
    ("0b0001000161010700034e614e05", "0b0000", "- 28"),
    (
        "0b0001000161010700034e614e05",
        "0b0001000161053ff0000000000000",
        "+ 0b0001000161053ff0000000000000",
    ),
    (
        "0b0001000161010700034e614e0a0002050700020500000700010000",
        "0b0000",
        "- 28",
    ),
];

const NULLABLE_DOUBLE: &str = "0a0002000500020000000500010000";

#[test]
fn the_starred_finishes() {
    for (schema, record, expected) in FINISHES {
        let answer = line(resolved(&bytes(schema), &bytes(record)));
        assert_eq!(answer, expected, "{schema} with {record}");
    }
}

#[test]
fn the_same_finishes_from_rust_values() {
    let elapsed = nullable(Schema::Double);
    assert_eq!(elapsed.to_frame(), Ok(bytes(NULLABLE_DOUBLE)));
    let refused = |schema: &Schema, value: Value| value.resolve(schema).unwrap_err().refusal();
    let most = Value::Long(2_147_483_647);
    assert_eq!(most.resolve(&Schema::Int), Ok(Value::Int(2_147_483_647)));
    let more = Value::Long(2_147_483_648);
    assert_eq!(refused(&Schema::Int, more), Some(Refusal::LongOutsideInt));
    assert_eq!(Value::Int(5).resolve(&elapsed), Ok(Some(5.0).into()));
    assert_eq!(Value::Null.resolve(&elapsed), Ok(None::<f64>.into()));
    let text = Value::from("NaN");
    let no_number = Some(Refusal::NotANumber);
    assert_eq!(refused(&Schema::Double, text.clone()), no_number);
    assert_eq!(refused(&elapsed, f64::NAN.into()), no_number);
    assert_eq!(refused(&elapsed, text), Some(Refusal::NoVariant));
    assert_eq!(refused(&elapsed, f32::NAN.into()), Some(Refusal::NoVariant));
}

#[test]
fn decimal_precision() {
    assert_eq!(decimal_of(307, 128), None);
    assert_eq!(decimal_of(308, 128), Some(Refusal::BytesTooFew));
    assert_eq!(decimal_of(u32::MAX as usize, 129), None);
}

#[test]
fn the_example_of_program_resolve() {
    let lines = ["02ffffffff", "030000000080000000", "00", ""]
        .map(|record| line(resolved(&bytes("02"), &bytes(record))));
    assert_eq!(lines, ["+ 02ffffffff", "- 7", "- 6", "- 5"]);
}

// What stops a decimal of so many bytes that meets so great a precision.
fn decimal_of(precision: usize, length: usize) -> Option<Refusal> {
    let schema = decimal(precision, 0, InnerDecimalSchema::Bytes);
    let sent = Value::Decimal(vec![1; length]);
    match sent.resolve(&schema) {
        Ok(got) => {
            assert_eq!(got, sent);
            None
        }
        Err(error) => error.refusal(),
    }
}
